"""Rights and TLS: an ACL user who may only read, one whose keys are for reading alone, and a connection by TLS.

    rights.py MODULE
"""
import os
import ssl
import subprocess
import sys

from checks import check, ended, same
from resp import code
from servers import ROOM, Server, free_port

READS = "gsd gnd gad gfd gcf find mgsd mgad mgnd counts recount info scan".split()
# Each command that writes, with words that would be done or refused for a reason of its own.
SUBSCRIBER = (1, 1, "0" * 10, "0" * 10, "0" * 20, 1, 1)
WRITES = {"create": (), "addsub": SUBSCRIBER, "addacc": (1, 1, 1, 1, "ABC", "ABCDE"), "addfac": (1, 1, 1, 1, 1, "ABCDE"),
          "add": ("acc,1,1,1,1,ABC,ABCDE",), "usd": (1, 1, 1, 1), "ul": (1, 1), "icf": (1, 1, 0, 1, 1), "dcf": (1, 1, 0),
          "active": (1, 1, 1), "number": (1, 2), "load": ("",)}
NO_RIGHT = "NOPERM"


def rights(server):
    admin = server.connection()
    admin("HLR.CREATE", "mine")
    admin("HLR.CREATE", "other")
    admin("HLR.ADDSUB", "mine", *SUBSCRIBER)
    same("a user who may run reads", admin("ACL", "SETUSER", "reader", "on", ">word", "~mine*", "-@all", *(f"+hlr.{name}" for name in READS)), "OK")
    same("a user whose keys are for reading", admin("ACL", "SETUSER", "looker", "on", ">word", "%R~mine*", "+@all"), "OK")
    before = admin("DEBUG", "DIGEST")
    for user in ("reader", "looker"):
        one = server.connection(user=user, password="word")
        for name in READS:
            words = {"gsd": 1, "gnd": 4, "gad": 2, "gfd": 2, "gcf": 3, "find": 1, "mgsd": 1, "mgad": 2, "mgnd": 4, "scan": 1}.get(name, 0)
            check(f"{user} may run {name}", code(one("HLR." + name, "mine", *[1] * words)) != NO_RIGHT)
            same(f"{user}, {name} of another key", code(one("HLR." + name, "other", *[1] * words)), NO_RIGHT)
        for name, words in WRITES.items():
            same(f"{user} may not run {name}", code(one("HLR." + name, "mine", *words)), NO_RIGHT)
        same(f"{user} reads the row", one("HLR.GSD", "mine", 1)[1], 1)
    same("nothing was written", admin("DEBUG", "DIGEST"), before)
    admin("ACL", "SETUSER", "writer", "on", ">word", "%W~mine*", "+hlr.ul", "+hlr.gsd")
    one = server.connection(user="writer", password="word")
    same("a user whose keys are for writing writes", one("HLR.UL", "mine", 1, 5), "OK")
    same("that user doesn't read", code(one("HLR.GSD", "mine", 1)), NO_RIGHT)


def openssl(folder, *words):
    subprocess.run(["openssl", *words], cwd=folder, check=True, stdout=subprocess.DEVNULL, stderr=subprocess.DEVNULL)


def authority(folder, name):
    openssl(folder, "req", "-x509", "-newkey", "rsa:2048", "-nodes", "-days", "2", "-subj", f"/CN={name}", "-keyout", name + ".key", "-out", name + ".pem")


def certificates():
    """A folder with two authorities, and a certificate of the server by the first one."""
    folder = os.path.join(ROOM, "keys")
    os.makedirs(folder)
    authority(folder, "trusted")
    authority(folder, "other")
    openssl(folder, "req", "-newkey", "rsa:2048", "-nodes", "-subj", "/CN=localhost", "-keyout", "server.key", "-out", "server.req")
    with open(os.path.join(folder, "names"), "w") as names:
        names.write("subjectAltName=DNS:localhost\n")
    openssl(folder, "x509", "-req", "-in", "server.req", "-CA", "trusted.pem", "-CAkey", "trusted.key", "-CAcreateserial", "-days", "2",
            "-extfile", "names", "-out", "server.pem")
    return folder


def by_tls(module):
    """One connection by TLS, and none where the server's authority isn't trusted."""
    folder = certificates()
    port = free_port()
    server = Server("tls", module, "--tls-port", str(port), "--tls-cert-file", folder + "/server.pem", "--tls-key-file", folder + "/server.key",
                    "--tls-ca-cert-file", folder + "/trusted.pem", "--tls-auth-clients", "no")
    server.port = port
    with server.connection(authority=folder + "/trusted.pem") as one:
        same("TLS", one.socket.version() in ("TLSv1.2", "TLSv1.3"), True)
        same("HLR.CREATE by TLS", one("HLR.CREATE", "hlr"), "OK")
        same("HLR.ADDSUB by TLS", one("HLR.ADDSUB", "hlr", *SUBSCRIBER), "OK")
        same("HLR.GSD by TLS", one("HLR.GSD", "hlr", 1)[:4], ["s_id", 1, "sub_nbr", "000000000000001"])
    try:
        server.connection(authority=folder + "/other.pem")
        check("an authority that isn't trusted", False)
    except ssl.SSLError:
        check("an authority that isn't trusted", True)


def main():
    rights(Server("rights", sys.argv[1]))
    by_tls(sys.argv[1])
    ended()


main()
