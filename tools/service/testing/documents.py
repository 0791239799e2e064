"""Checks of the documents that `tools/bfs keys` makes, and of what is refused."""
import stat
import struct
import subprocess
import sys
import tomllib
from pathlib import Path

from service import signatures
from service.cluster import LIMITS, Address, Cluster, cluster_in, read_cluster
from service.keys import COUNTER, INDEXES, LEVELS, REPLICA_KEY, REPLICA_LEVELS, SIGNING_KEY, is_nearly_spent, signing_key_in
from service.programs import TOP, TRANSPORT
from service.testing.running import check
from service.testing.signing import PREPARE, index_of, signature_of


def pairs(service):
    """The pairs of any two are the same keys, the other way round; all keys are different; private files are private."""
    read = lambda name: tomllib.loads(Path(service.folder, f"{name}.toml").read_text())
    replicas, clients = [read(f"replica-{k}") for k in range(4)], [read(f"client-{k}") for k in range(8)]
    check([each["me"] for each in replicas + clients] == [{"replica": k} for k in range(4)] + [{"client": k} for k in range(8)], "me")
    pairs = [(replicas[one]["replicas"][other], replicas[other]["replicas"][one]) for one in range(4) for other in range(4)]
    pairs += [(replicas[one]["clients"][other], clients[other]["replicas"][one]) for one in range(4) for other in range(8)]
    check(all(one["sending"] == other["receiving"] and one["receiving"] == other["sending"] for one, other in pairs), "pairs differ")
    keys = {key for pair in pairs for each in pair for key in each.values()}
    check(len(keys) == 16 + 64 and all(len(bytes.fromhex(key)) == 32 for key in keys), f"{len(keys)} keys")
    check(all("clients" not in each for each in clients), "a client has keys of clients")
    modes = {stat.S_IMODE(path.stat().st_mode) for path in Path(service.folder).glob("*-*.toml")}
    check(modes == {0o600}, f"modes {modes}")
    folders = [Path(service.folder, f"replica-{number}") for number in range(4)]
    check(all(stat.S_IMODE(folder.stat().st_mode) == 0o700 and [each.name for each in folder.iterdir()] == ["new"] for folder in folders), "folders")
    check(Path(service.folder, COUNTER).read_text() == "0\n", "the relay's first timestamp is another")
    there = any(Path(service.folder).glob("*.key")) or Path(service.folder, INDEXES).exists()
    cluster = read_cluster(service.folder)
    check(not there and not cluster.signers and not cluster.replica_signers, "one signs in spite of --unsigned")


def signed(service):
    """A relay that signs has a private key, new each time, whose public key cluster.toml has for each client; its signatures pass for that. It isn't run
    where the file of the key's next index is lost, or others may write it."""
    folders = [f"{service.folder}-signed-{each}" for each in range(2)]
    for folder in folders:
        said, status = service.bfs("keys", folder, "--f", "0", "--clients", "3", "--heights", "5,5", "--replica-heights", "5,10")
        check(status == 0 and SIGNING_KEY in said, said)
        path, cluster = Path(folder, SIGNING_KEY), read_cluster(folder)
        indexes = Path(folder, INDEXES)
        check(all(stat.S_IMODE(each.stat().st_mode) == 0o600 for each in (path, indexes)), "the signing key or its next index isn't private")
        check(indexes.read_text() == "0\n", "the key's first index is another")
        key = signing_key_in(path.read_text())
        check(cluster.signers == (key.public_key,) * 3, "the signers are others")
        texts = [b"a", b"b", b"c"]
        made = signatures.sign_texts(key, 31, texts)
        check(all(signatures.verify_text(cluster.signers[0], text, each) for text, each in zip(texts, made)), "a signature doesn't pass")
        check(not signatures.verify_text(cluster.signers[0], b"d", made[0]), "another text passes")
    one, other = (Path(folder, SIGNING_KEY).read_text() for folder in folders)
    check(not set(one.splitlines()[:2]) & set(other.splitlines()), "two keys have one id or seed")
    replicas_sign(service, folders[0])
    said, status = service.bfs("keys", folders[0], "--heights", "5,5")
    check(status == 1 and "nothing is written over" in said and Path(folders[0], SIGNING_KEY).read_text() == one, said)
    for change, told in (
        (lambda: indexes.chmod(0o660), "relay.index: others than its owner may read or write it"),
        (indexes.unlink, "relay.index: it is lost"),
        (path.unlink, "relay.key: No such file"),
    ):
        change()
        said, status = service.bfs("relay", folders[1], "--relay-program=/bin/true")
        check(status == 1 and told in said and said.count("\n") == 1, said)
    for words, told in (
        (["--heights", "5,6"], "--heights: '5,6' is no 1 to 8 of 5, 10, 15"),
        (["--heights", "5,5,5,5,5,5,5,5,5"], "--heights: '5,5,5,5,5,5,5,5,5' is no 1 to 8"),
        (["--heights", ""], "--heights: '' is no 1 to 8"),
        (["--replica-heights", "5"], "--replica-heights: '5' is no 2 to 4 of 5, 10, 15"),
        (["--replica-heights", "5,5,5,5,5"], "--replica-heights: '5,5,5,5,5' is no 2 to 4"),
        (["--f", "6", "--replica-heights", "5,5"], "--replica-heights: where more than 5 may fail"),
        (["--heights", "5", "--unsigned"], "--unsigned: what signs nothing"),
        (["--replica-heights", "5,5", "--unsigned"], "--unsigned: what signs nothing"),
    ):
        said, status = service.bfs("keys", f"{service.folder}-none", *words)
        check(status == 1 and told in said and said.count("\n") == 1 and not Path(f"{service.folder}-none").exists(), said)
    said, status = service.bfs("keys", f"{service.folder}-none", "--f", "0", "--clients", "1", "--unsigned")
    check(status == 0 and SIGNING_KEY not in said and not read_cluster(f"{service.folder}-none").signers, said)
    said, status = service.bfs("keys", usual := f"{service.folder}-usual", "--f", "0", "--clients", "1")
    heights = signing_key_in(Path(usual, SIGNING_KEY).read_text()).below
    check(status == 0 and heights == list(LEVELS[1:]) and len(read_cluster(usual).signers) == 1, f"{heights}: {said}")
    heights = signing_key_in(Path(usual, REPLICA_KEY.format(0)).read_text()).below
    check(heights == list(REPLICA_LEVELS[1:]) and len(read_cluster(usual).replica_signers) == 1, f"{heights}: {said}")


def replicas_sign(service, folder):
    """Each replica has a private key of its own, whose public key cluster.toml has; it isn't run without it, or where others may read it."""
    path, cluster = Path(folder, REPLICA_KEY.format(0)), read_cluster(folder)
    key = signing_key_in(path.read_text())
    check(stat.S_IMODE(path.stat().st_mode) == 0o600 and cluster.replica_signers == (key.public_key,), "the replica's key isn't private, or is another")
    check(key.public_key not in cluster.signers and key.below == [10], "the replica has the relay's key, or one of other heights")
    signature = signature_of(key, body := struct.pack(">IIQQ", PREPARE, 0, 30, 1_021) + bytes(32))
    check(signatures.verify_text(key.public_key, body, signature) and index_of(key, body) == 31 * 1_024 - 1, "a vote's signature doesn't pass")
    spent = [is_nearly_spent(folder, 0, views, batches) for views, batches in ((29, 958), (30, 0), (0, 959))]
    check(spent == [False, True, True] and not is_nearly_spent(folder, 1, 1 << 60, 0), f"{spent}")
    for change, told in ((lambda: path.chmod(0o640), "replica-0.key: others than its owner"), (path.unlink, "replica-0.key: No such file")):
        change()
        for words in (["replica", "0"], ["up"]):
            said, status = service.bfs(*words, folder, "--replica-program=/bin/true", "--relay-program=/bin/true")
            check(status == 1 and told in said and said.count("\n") == 1, said)


def others(_service):
    """The signatures that Bouncy Castle made are made and pass, and what is changed doesn't."""
    tested = subprocess.run([sys.executable, TOP / "tools/service/signatures.py"], stdout=subprocess.PIPE, stderr=subprocess.STDOUT, text=True)
    check(tested.returncode == 0 and tested.stdout == "ok\n", tested.stdout[-2_000:])


def refusals(service):
    """What is missing or wrong is told in one line, with status 1."""
    said, status = service.bfs("keys", service.folder)
    check(status == 1 and "nothing is written over" in said, said)
    said, status = service.bfs("replica", "1", service.folder, "--replica-program=/nowhere/there")
    check(status == 1 and "/nowhere/there: there is no such program" in said and said.count("\n") == 1, said)
    path, folder = Path(service.folder, "replica-1.toml"), Path(service.folder, "replica-1")
    path.chmod(0o640)
    for words in (["replica", "1"], ["up"]):
        said, status = service.bfs(*words, service.folder, "--replica-program=/bin/true", "--relay-program=/bin/true")
        check(status == 1 and "replica-1.toml: others than its owner" in said and "0640" in said, said)
    path.chmod(0o600)
    for change, back, told in (
        (lambda: folder.chmod(0o755), lambda: folder.chmod(0o700), "replica-1: others than its owner"),
        (lambda: folder.rename(f"{folder}-gone"), lambda: Path(f"{folder}-gone").rename(folder), "replica-1: No such file or directory"),
    ):
        change()
        said, status = service.bfs("replica", "1", service.folder, "--replica-program=/bin/true")
        check(status == 1 and told in said and said.count("\n") == 1, said)
        back()
    said, status = service.bfs("replica", "4", service.folder)
    check(status == 1 and "0 to 3" in said, said)


def faults_of_cluster(service):
    """Each fault of the public document is named with its key; what may be left out is read where it is there."""
    least = {"f": 0, "clients": 1, "replicas": ["a:1"], "relay": "b:2"}
    most = least | {"portmap": "b:111", "patience": 60_000, "limits": LIMITS}
    made = Cluster(0, 1, (Address("a", 1),), Address("b", 2), Address("b", 111))
    check(cluster_in(most) == made and cluster_in(least) == made._replace(portmap=None), "a good document is another cluster")
    path = Path(service.folder, "cluster.toml")
    good = path.read_text()
    for old, new, told in (
        ("f = 1", "f = 2", "replicas: with f = 2"),
        ("f = 1", "f = 11", "f: 11 is no number from 0 to 10"),
        ("clients = 8", "clients = true", "clients: True is no number"),
        ("clients = 8", "", "clients: it is missing"),
        ("clients = 8", "clients = 8\nmore = 1", "more: there is no such key"),
        ("portmap = ", "portmap = 111 #", "portmap: 111 is no HOST:PORT"),
        ("clients = 8", "clients = 8\npatience = 0", "patience: 0 is no number from 1 to 60000"),
        ("clients = 8", "clients = 8\nsigners = 1", "signers: it is no array of texts"),
        ("clients = 8", "clients = 8\nsigners = [1]", "signers: it is no array of texts"),
        ("clients = 8", "clients = 8\nsigners = ['00']", "signers: that of client 0 is no public key"),
        ("clients = 8", f"clients = 8\nsigners = ['{' 00' * 60}']", "signers: that of client 0 is no public key"),
        ("clients = 8", "clients = 8\nsigners = []", "signers: there are to be 8 of them"),
        ("clients = 8", "clients = 8\nreplica_signers = ['00']", "replica_signers: that of replica 0 is no public key"),
        ("clients = 8", "clients = 8\nreplica_signers = []", "replica_signers: there are to be 4 of them"),
        ("clients = 8", "clients = 8\nlimits = 1", "limits: 1 is no table"),
        ("clients = 8", "clients = 8\nlimits.orders = 1", "limits.orders: there is no such key"),
        ("clients = 8", "clients = 8\nlimits.request = 28699", "limits.request: 28699 is no number from 28700 to 4294967295"),
        ('relay = "127.0.0.1:', 'relay = "127.0.0.1:0', "relay: "),
        ('relay = "127.0.0.1:', 'relay = "', "relay: "),
        (f":{service.portmap[1]}", f":{service.relay[1]}", "replicas: two of these"),
        ("f = 1", "f = ", "cluster.toml: Invalid value"),
    ):
        path.write_text(good.replace(old, new) if "relay: " not in told else good.replace(old, new + "x"))
        said, status = service.bfs("status", service.folder)
        check(status == 1 and told in said and said.count("\n") == 1, f"{new!r}: {said}")
    path.write_text(good)


def parts(_service):
    """The tests of the transport's own parts."""
    command = ["cargo", "test", "--offline", "--quiet"]
    tested = subprocess.run(command, cwd=TRANSPORT, stdin=subprocess.DEVNULL, stdout=subprocess.PIPE, stderr=subprocess.STDOUT, text=True)
    check(tested.returncode == 0 and "test result: ok." in tested.stdout, tested.stdout[-2_000:])
