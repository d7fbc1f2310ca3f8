"""A user who does nothing wrong, and an origin that answers it at once. Prints the origin's port, reads a proxy's, and asks that one
until its input ends; then prints the longest that an answer took, the longest of one from the origin itself, which is asked each
fourth time, how many there were of the proxy's, and how many were others."""
import socket
import sys
import threading
import time

REQUEST = b"GET http://probe.test/ HTTP/1.1\r\nHost: probe.test\r\n\r\n"
BODY = b"probe" * 20
PATIENCE = 30


def until_end_of_head(sock):
    text = b""
    while b"\r\n\r\n" not in text:
        piece = sock.recv(65536)
        if not piece:
            break
        text += piece
    return text


def serve(listener):
    while True:
        conn, _ = listener.accept()
        with conn:
            until_end_of_head(conn)
            conn.sendall(b"HTTP/1.1 200 OK\r\nContent-Length: %d\r\n\r\n" % len(BODY) + BODY)


def asks(port):
    """Asks once on a connection of its own: whether the answer is what it should be."""
    try:
        with socket.create_connection(("127.0.0.1", port), PATIENCE) as sock:
            sock.sendall(REQUEST)
            head, _, body = until_end_of_head(sock).partition(b"\r\n\r\n")
            while head.startswith(b"HTTP/1.1 200 ") and len(body) < len(BODY):
                piece = sock.recv(65536)
                if not piece:
                    return False
                body += piece
            return head.startswith(b"HTTP/1.1 200 ") and body == BODY
    except OSError:
        return False


def main():
    listener = socket.create_server(("127.0.0.1", 0), backlog=64)
    threading.Thread(target=serve, args=(listener,), daemon=True).start()
    print(listener.getsockname()[1], flush=True)
    port = int(sys.stdin.readline())
    ended = threading.Event()
    threading.Thread(target=lambda: (sys.stdin.read(), ended.set()), daemon=True).start()
    slowest, direct, count, wrong = 0, 0, 0, 0
    while not ended.wait(0.01):
        start = time.monotonic()
        wrong += not asks(port)
        slowest = max(slowest, time.monotonic() - start)
        count += 1
        if count % 4 == 0:
            start = time.monotonic()
            asks(listener.getsockname()[1])
            direct = max(direct, time.monotonic() - start)
    try:
        print("%.3f %.3f %d %d" % (slowest, direct, count, wrong), flush=True)
    except BrokenPipeError:
        pass  # Nobody asks any more.


if __name__ == "__main__":
    main()
