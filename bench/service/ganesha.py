"""Debian's NFS server in user space, NFS-Ganesha, over a file system in memory, and calls of NFS version 3 (RFC 1813) to it."""
import pathlib
import shutil
import socket
import struct
import subprocess
import sys
import tempfile
import time

PACKAGES = "nfs-ganesha", "nfs-ganesha-vfs", "rpcbind"
NFS, MOUNT = (100_003, 3), (100_005, 3)
FILE_SYNC = 2
PATIENCE = 20
CONFIGURATION = """
NFS_CORE_PARAM {{ NFS_Port = {nfs}; MNT_Port = {mount}; Bind_addr = 127.0.0.1; Protocols = 3; Enable_NLM = false; Enable_RQUOTA = false; }}
NFS_KRB5 {{ Active_krb5 = false; }}
EXPORT {{
    Export_Id = 1; Path = {folder}; Pseudo = /files; Protocols = 3; Transports = TCP; SecType = sys; Access_Type = RW; Squash = No_Root_Squash;
    FSAL {{ Name = VFS; }}
}}
"""


class Server:
    """The server; a port mapper, at which it tells its ports, where none runs yet."""

    transports = ()

    def __init__(self, room):
        if not shutil.which("ganesha.nfsd"):
            subprocess.run(["apt-get", "install", "-q", "-y", "--no-install-recommends", *PACKAGES], check=True, stdout=subprocess.DEVNULL)
        sockets = [socket.create_server(("127.0.0.1", 0)) for _ in range(2)]
        self.port, self.mount_port = (each.getsockname()[1] for each in sockets)
        for each in sockets:
            each.close()
        configuration, self.log = pathlib.Path(room, "ganesha.conf"), pathlib.Path(room, "ganesha.log")
        self.folder = tempfile.mkdtemp(prefix="bfs-ganesha-", dir="/dev/shm")
        configuration.write_text(CONFIGURATION.format(nfs=self.port, mount=self.mount_port, folder=self.folder))
        self.mapper = None if is_open(111) else subprocess.Popen(["rpcbind", "-f"])
        wait_for(111)
        words = ["ganesha.nfsd", "-F", "-f", configuration, "-L", self.log, "-p", f"{room}/ganesha.pid"]
        self.process = subprocess.Popen(words, stdin=subprocess.DEVNULL, stdout=subprocess.DEVNULL, stderr=subprocess.DEVNULL)
        self.filters = [self.process.pid]

    def __enter__(self):
        for port in self.port, self.mount_port:
            wait_for(port)
        return self

    def __exit__(self, *_):
        for process in filter(None, (self.process, self.mapper)):
            process.kill()
            process.wait()
        shutil.rmtree(self.folder)


def is_open(port):
    with socket.socket() as one:
        return one.connect_ex(("127.0.0.1", port)) == 0


def wait_for(port):
    end = time.monotonic() + PATIENCE
    while not is_open(port):
        if time.monotonic() > end:
            sys.exit(f"nothing listens on port {port}: rpcbind or ganesha.nfsd did not start")
        time.sleep(0.1)


def opaque(data):
    return struct.pack(">I", len(data)) + data + bytes(-len(data) % 4)


def calls(client, at_mount, folder, block, blocks):
    """GETATTRs and WRITEs of a new file (sections 3.3.1 and 3.3.7), for ever."""
    handle_at = lambda reply, at: reply[at : at + 4 + struct.unpack_from(">I", reply, at)[0]]
    root = handle_at(at_mount.ask(MOUNT, 1, opaque(folder.encode())), 0)
    made = client.ask(NFS, 8, root + opaque(b"file") + bytes(4) + struct.pack(">2I", 1, 0o644) + bytes(20))
    handle = handle_at(made, 4)

    def getattrs():
        while True:
            yield NFS, 1, handle

    def writes():
        while True:
            for number in range(blocks):
                yield NFS, 7, handle + struct.pack(">Q2I", number * block, block, FILE_SYNC) + opaque(bytes([number]) * block)

    return getattrs(), writes()
