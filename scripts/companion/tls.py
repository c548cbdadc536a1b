"""TLS, by Python's ssl: between nodes, whose certificates a CA of theirs has signed, and with clients, who may have to show one, too."""
import collections
import ssl

# for peers that connect, to connect to peers, and for clients; each None where there is no TLS
Contexts = collections.namedtuple("Contexts", "heard told clients")
NONE = Contexts(None, None, None)
FLIGHTS = 10  # more than a handshake has
HANDSHAKE = 5.0  # seconds for the handshake of one who connects, who costs a socket and room meanwhile


def contexts_of(o):
    """The contexts, and what is wrong with the options and files that they are made of."""
    files = {name: getattr(o, name) for name in ("tls_cert", "tls_key", "tls_ca")}
    if not any(files.values()) and not o.tls_clients:
        return NONE, []
    missing = ["--%s is missing" % name.replace("_", "-") for name, path in files.items() if not path]
    if missing:
        return NONE, missing
    contexts, problems = Contexts(*map(ssl.SSLContext, (ssl.PROTOCOL_TLS_SERVER, ssl.PROTOCOL_TLS_CLIENT, ssl.PROTOCOL_TLS_SERVER))), []
    for context, ca in zip(contexts, (o.tls_ca, o.tls_ca, o.tls_clients)):
        context.minimum_version = ssl.TLSVersion.TLSv1_2
        try:
            # nobody is asked for a password
            context.load_cert_chain(o.tls_cert, o.tls_key, "")
        except (OSError, ValueError) as error:
            problems.append("the certificate %s with the key %s: %s" % (o.tls_cert, o.tls_key, error))
        try:
            if ca:
                context.load_verify_locations(ca)
                context.verify_mode = ssl.CERT_REQUIRED
        except (OSError, ValueError) as error:
            problems.append("the certificates of a CA in %s: %s" % (ca, error))
    return contexts, list(dict.fromkeys(problems))


def fault_of(contexts, host):
    """What is wrong where a node connects to itself, whose address has this host: the certificate may be of another CA, host or use, or be over. None where
    nothing is."""
    there, back = ssl.MemoryBIO(), ssl.MemoryBIO()
    ends = contexts.told.wrap_bio(back, there, server_hostname=host), contexts.heard.wrap_bio(there, back, server_side=True)
    for end in ends * FLIGHTS:
        try:
            end.do_handshake()
        except ssl.SSLWantReadError:
            pass
        except ssl.SSLError as error:
            return str(error)
    return None


def serving(context):
    """How a server is made that speaks by a context; without TLS where that is None."""
    return {"ssl": context, "ssl_handshake_timeout": HANDSHAKE} if context else {}


def tell_faults(contexts, tell):
    """Has it told with whom a handshake failed, and why: the host of who was connected to, or None, and the error."""
    class Telling(ssl.SSLObject):
        def do_handshake(self):
            try:
                super().do_handshake()
            except (ssl.SSLWantReadError, ssl.SSLWantWriteError):
                raise
            except ssl.SSLError as error:
                tell(self.server_hostname, error)
                raise

    for context in filter(None, contexts):
        context.sslobject_class = Telling
