"""Servers that others made: a folder for their files, what their configurations share, their start and their end."""
import os
import shutil
import socket
import subprocess
import tempfile
import time

from .loopback import PATIENCE

# Where nginx writes. The modules that don't run want a place too.
NGINX_FOLDERS = """client_body_temp_path %(dir)s/b; proxy_temp_path %(dir)s/p;
fastcgi_temp_path %(dir)s/f; uwsgi_temp_path %(dir)s/u; scgi_temp_path %(dir)s/s;"""
# A Squid that keeps nothing, and leaves nothing outside its folder.
SQUID_ALONE = """http_access allow all
cache deny all
access_log none
cache_log %(dir)s/squid.log
cache_store_log none
pid_filename none
coredump_dir %(dir)s
shutdown_lifetime 1 seconds
pinger_enable off"""


def waited_for(port):
    """Whether somebody listens on the port in time."""
    end = time.time() + PATIENCE
    while time.time() < end:
        with socket.socket() as sock:
            if sock.connect_ex(("127.0.0.1", port)) == 0:
                return True
        time.sleep(0.05)
    return False


class Servers:
    """Servers in a folder of their own, with the files that they serve below www/."""

    def __init__(self, name, files):
        self.dir = tempfile.mkdtemp(prefix=name + ".")
        self.running = []
        os.mkdir(self.dir + "/www")
        for file, body in files.items():
            with open("%s/www/%s" % (self.dir, file), "wb") as out:
                out.write(body)
        # Some servers have a user of their own.
        for folder in (self.dir, self.dir + "/www"):
            os.chmod(folder, 0o777)

    def write(self, name, text, **words):
        """The path of a file of this text."""
        path = os.path.join(self.dir, name)
        with open(path, "w") as out:
            out.write(text % dict(words, dir=self.dir))
        return path

    def start(self, command, port):
        """The process of a server that listens on this port."""
        process = subprocess.Popen(command, stdin=subprocess.DEVNULL, stdout=subprocess.DEVNULL, stderr=subprocess.DEVNULL)
        self.running.append(process)
        if not waited_for(port):
            raise AssertionError("nothing listens: %s" % command)
        return process.pid

    def end(self):
        """Ends the servers. Their files stay."""
        for process in self.running:
            process.terminate()
        for process in self.running:
            try:
                process.wait(10)
            except subprocess.TimeoutExpired:
                process.kill()
                process.wait()
        self.running = []

    def close(self):
        self.end()
        shutil.rmtree(self.dir, ignore_errors=True)
