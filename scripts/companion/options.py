"""The options of rexd, on its command line and in a file, and what is wrong with them."""
import argparse
import configparser
import os
import shutil
import subprocess
import tempfile

from companion.node import ENDS
from companion.tls import contexts_of, fault_of

SCRIPTS = os.path.dirname(os.path.dirname(os.path.realpath(__file__)))
# where rexd was installed rexnode is beside it
INSTALLED, BUILT = os.path.join(SCRIPTS, "rexnode"), os.path.join(os.path.dirname(SCRIPTS), "crates", "rexnode", "out", "rexnode")
NEEDED = ("peers", "clients", "service", "journal")
LEAST_KEY = 16
LOOPBACK = ("127.0.0.1", "localhost", "::1")


def port(text):
    number = int(text)
    if not 1 <= number <= 65535:
        raise ValueError
    return number


def address(text):
    host, _, number = text.strip().rpartition(":")
    # who looks up a host's addresses spells it so: what can't be spelled would end rexd then
    host.encode("idna")
    return host.strip("[]"), port(number)


def address_here(text):
    host, number = address(text)
    return host or "127.0.0.1", number


def addresses(text):
    return [address_here(it) for it in text.split(",")]


def parser_of(usage, description):
    """The parser, and the names of options that may stand in a file."""
    parser = argparse.ArgumentParser(usage=usage, description=description, formatter_class=argparse.RawDescriptionHelpFormatter)
    parser.add_argument("id", type=int, help="the node's number, from 1")
    parser.add_argument("--config", help="a file with options; rexd.ini is an example. The command line's override it")
    parser.add_argument("--check", action="store_true", help="says what is wrong with the options and the files, and runs nothing")
    of_file = [
        parser.add_argument("--peers", type=addresses, help="HOST:PORT of each node, with commas between"),
        parser.add_argument("--clients", type=port, help="the port for clients"),
        parser.add_argument("--service", help="the file with the service's text"),
        parser.add_argument("--journal", help="the file with the node's records; it is made where it isn't there"),
        parser.add_argument("--bind", default="127.0.0.1", help="the address on which peers and clients are heard; this machine's own by default"),
        parser.add_argument("--resp", type=address_here, metavar="[HOST:]PORT", help="where clients of Redis may ask; on this machine alone, without a HOST"),
        parser.add_argument("--http", type=address_here, metavar="[HOST:]PORT", help="where the node can be looked at; on this machine alone, without a HOST"),
        parser.add_argument("--key", help="a file with at least 16 bytes that all nodes have and nobody else: what they send each other is sealed by it"),
        parser.add_argument("--tls-cert", help="the node's certificate in PEM, which names the host of its address: peers and clients speak by TLS then"),
        parser.add_argument("--tls-key", help="its key"),
        parser.add_argument("--tls-ca", help="certificates in PEM, one of which has to have signed each node's: who has such a one counts as a node"),
        parser.add_argument("--tls-clients", help="certificates in PEM, one of which has to have signed each client's; without it clients show none"),
        parser.add_argument("--seed", type=int, default=0, help="the seed of the service's dice, the same at each node"),
        parser.add_argument("--cluster", default="", help="the cluster's name, the same at each node"),
        parser.add_argument("--node", default=INSTALLED if os.path.exists(INSTALLED) else BUILT,
                            help="the program; that beside rexd by default, or where there is none crates/rexnode/out/rexnode"),
        parser.add_argument("--patience", type=float, default=1.0, help="how much of the usual time a node waits for a leader before it asks to lead"),
    ]
    tests = parser.add_argument_group("for tests alone")
    tests.add_argument("--lose", type=float, default=0.0, help="this part of all messages is lost")
    tests.add_argument("--forget", type=float, default=0.0, help="this part is lost of the messages by which who leads tells at once what was agreed")
    tests.add_argument("--repeat", type=float, default=0.0, help="this part of all messages is sent again, in another order")
    tests.add_argument("--delay", type=float, default=0.0, help="messages wait up to so many milliseconds")
    tests.add_argument("--parting", action="store_true", help="the lines `part N` and `join N` part this node from node N, and join them again")
    return parser, {action.option_strings[0][2:]: action for action in of_file}


def options_of(words, usage, description):
    """The options, what is wrong with them, and the parser."""
    parser, of_file = parser_of(usage, description)
    options, problems = parser.parse_args(words), []
    if options.config:
        values, problems = values_in(options.config, options.id, of_file)
        parser.set_defaults(**values)
        options = parser.parse_args(words)
    return options, problems + problems_with(options), parser


def values_in(path, node, of_file):
    """The values that a file has for a node, and what is wrong with the file."""
    file, values, problems = configparser.ConfigParser(interpolation=None, default_section=None), {}, []
    try:
        with open(path) as it:
            file.read_file(it)
    except (OSError, UnicodeError, configparser.Error) as error:
        return {}, ["%s: %s" % (path, " ".join(str(error).split()))]
    for section in file.sections():
        if section != "rexd" and not (section.startswith("node ") and section[5:].isdigit()):
            problems.append("%s: there are the sections [rexd] and [node N], and no [%s]" % (path, section))
    for section in "rexd", "node %d" % node:
        for name, text in file[section].items() if file.has_section(section) else ():
            try:
                values[of_file[name].dest] = (of_file[name].type or str)(text)
            except KeyError:
                problems.append("%s: [%s] has no option %s" % (path, section, name))
            except ValueError:
                problems.append("%s: [%s] %s can't be %s" % (path, section, name, text))
    return values, problems


def problems_with(o):
    problems = ["--%s is missing" % name for name in NEEDED if getattr(o, name) is None]
    o.secret, bad_key = secret_in(o.key) if o.key else (b"", [])
    o.tls, bad_tls = contexts_of(o)
    problems += bad_key + bad_tls
    if o.peers is not None:
        if not 1 <= o.id <= len(o.peers):
            problems.append("there are %d peers, and %d is none of them" % (len(o.peers), o.id))
        if len(o.peers) not in (1, 3, 5, 7, 9):
            problems.append("there are 1, 3, 5, 7 or 9 nodes, and not %d" % len(o.peers))
        if len(set(o.peers)) < len(o.peers):
            problems.append("an address is two peers'")
    if not problems and o.tls.heard:
        host = o.peers[o.id - 1][0]
        fault = fault_of(o.tls, host)
        problems += ["who connects to this node as %s by TLS fails: %s" % (host, fault)] if fault else []
    return problems


def secret_in(path):
    """The bytes of a key's file, without white space at their ends, and what is wrong with them."""
    try:
        with open(path, "rb") as file:
            secret = file.read().strip()
    except OSError as error:
        return b"", ["the key can't be read: %s" % error]
    return secret, ["the key in %s has fewer than %d bytes" % (path, LEAST_KEY)] if len(secret) < LEAST_KEY else []


# ---- --check

def check(o, problems):
    """Tells what is wrong with the options and the files. Answers whether nothing is."""
    problems = problems + problems_with_files(o)
    problems = problems or problems_of_node(o)
    notes = [] if problems else notes_on(o)
    for text in problems:
        print("wrong: " + text)
    for text in notes:
        print("note: " + text)
    if not problems:
        print("good: node %d of %d, and its journal is %s" % (o.id, len(o.peers), "there" if os.path.exists(o.journal) else "a new one"))
    return not problems


def problems_with_files(o):
    problems = []
    if o.service and not os.path.isfile(o.service):
        problems.append("there is no service %s" % o.service)
    if o.journal and not os.path.isdir(os.path.dirname(os.path.abspath(o.journal))):
        problems.append("there is no folder for the journal %s" % o.journal)
    if not (os.path.isfile(o.node) and os.access(o.node, os.X_OK)):
        problems.append("%s is no program" % o.node)
    return problems


def problems_of_node(o):
    """What rexnode says of the service, and of a copy of the journal."""
    with tempfile.TemporaryDirectory() as folder:
        journal = os.path.join(folder, "journal")
        try:
            if os.path.exists(o.journal):
                shutil.copyfile(o.journal, journal)
            ran = subprocess.run(node_words(o, journal), stdin=subprocess.DEVNULL, stdout=subprocess.PIPE)
        except OSError as error:
            return [str(error)]
    line = ran.stdout.decode("latin-1").strip()
    return ["rexnode ends with status %d: %s%s" % (ran.returncode, ENDS.get(ran.returncode, "?"), ": " + line if line else "")] if ran.returncode else []


def notes_on(o):
    notes = []
    if o.bind in LOOPBACK and any(host not in LOOPBACK for host, _ in o.peers):
        notes.append("there are peers on other machines, and this node is heard on this machine alone: see --bind")
    if o.bind not in LOOPBACK and not o.key and not o.tls_ca:
        notes.append("other machines can reach the peers' port, and there is no --key: who reaches it can forge messages")
    for path in filter(None, (o.key, o.tls_key)):
        if os.stat(path).st_mode & 0o077:
            notes.append("others on this machine can read the key in %s, or change it" % path)
    return notes


def node_words(o, journal):
    """The command line of rexnode."""
    return [o.node, str(o.id), str(len(o.peers)), o.service, journal, "--seed", str(o.seed), "--cluster=" + o.cluster]
