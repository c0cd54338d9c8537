"""What try-sso knows people by: a directory, slapd with people and groups, and a provider of OpenID Connect of its own."""

import base64
import hashlib
import hmac
import http.client
import http.server
import json
import os
import secrets
import ssl
import subprocess
import threading
import time
import urllib.parse

import jwt
from cryptography.hazmat.primitives import hashes, serialization
from cryptography.hazmat.primitives.asymmetric import ec, rsa
from cryptography.hazmat.primitives.asymmetric.utils import decode_dss_signature, encode_dss_signature
from trying import must, run, wait_for

BASE = "dc=example,dc=org"
PORTS = {"ldap": 389, "ldaps": 636}
PEOPLE = {"ada": ["dns-phys"], "grace": ["dns-phys", "staff", "dns-lib"], "kurt": ["staff"], "emmy": []}

SLAPD = """\
include /etc/ldap/schema/core.schema
include /etc/ldap/schema/cosine.schema
include /etc/ldap/schema/inetorgperson.schema
modulepath /usr/lib/ldap
moduleload back_mdb
moduleload memberof
TLSCACertificateFile {folder}/ca.pem
TLSCertificateFile {folder}/ldap.pem
TLSCertificateKeyFile {folder}/ldap.key
security simple_bind=128
pidfile {folder}/slapd.pid
database mdb
suffix {base}
rootdn cn=admin,{base}
directory {folder}/ldap
overlay memberof
{rule}
access to * by dn.exact=cn=office,{base} read by self read by * none
"""


def make_certificates(folder):
    """An authority, and what it signs for each name of the trial."""
    must(f"openssl req -x509 -newkey ec -pkeyopt ec_paramgen_curve:P-256 -nodes -subj '/CN=authority of the trial' -days 2 "
         f"-keyout {folder}/ca.key -out {folder}/ca.pem")
    for name in "office", "ldap", "login":
        must(f"openssl req -newkey ec -pkeyopt ec_paramgen_curve:P-256 -nodes -subj /CN={name}.example.org -keyout {name}.key "
             f"-out {name}.csr && echo subjectAltName=DNS:{name}.example.org > {name}.ext && openssl x509 -req -in {name}.csr "
             f"-CA ca.pem -CAkey ca.key -CAcreateserial -days 2 -extfile {name}.ext -out {name}.pem", cwd=folder)


def entry(name, **fields):
    lines = [f"{key}: {value}" for key, values in fields.items() for value in ([values] if isinstance(values, str) else values)]
    return "\n".join([f"dn: {name}", *lines, ""])


class Directory:
    """slapd, with people, their groups, and the account as which Apache looks for them."""

    def __init__(self, folder, rule, password):
        self.folder = folder
        self.process = None
        self.schemes = list(PORTS)
        os.makedirs(f"{folder}/ldap")
        with open(f"{folder}/slapd.conf", "w") as file:
            file.write(SLAPD.format(folder=folder, base=BASE, rule=rule.strip()))
        with open(f"{folder}/ldap-password", "w") as file:
            file.write("secret of office\n")
        entries = [
            entry(BASE, objectClass=["dcObject", "organization"], dc="example", o="Example"),
            *(entry(f"ou={name},{BASE}", objectClass="organizationalUnit", ou=name) for name in ("people", "groups", "other")),
            entry(f"cn=office,{BASE}", objectClass=["organizationalRole", "simpleSecurityObject"], cn="office",
                  userPassword="secret of office"),
            entry(f"cn=admin,{BASE}", objectClass=["organizationalRole", "simpleSecurityObject"], cn="admin", userPassword="secret"),
            *(entry(f"uid={person},ou=people,{BASE}", objectClass="inetOrgPerson", uid=person, cn=person, sn=person,
                    userPassword=password(person)) for person in PEOPLE),
        ]
        must(f"slapadd -f {folder}/slapd.conf", input="\n".join(entries))

    def start(self):
        self.process = subprocess.Popen(["slapd", "-d", "0", "-f", f"{self.folder}/slapd.conf", "-h", " ".join(f"{one}://127.0.0.1:{PORTS[one]}/" for one in self.schemes)],
                                        stderr=subprocess.DEVNULL)
        wait_for(lambda: all(run(f"ss -Hltn sport = {PORTS[one]}")[1] for one in self.schemes))
        if not os.path.exists(f"{self.folder}/grouped"):
            open(f"{self.folder}/grouped", "w").close()
            for group in sorted({group for groups in PEOPLE.values() for group in groups}):
                self.group(f"cn={group},ou=groups,{BASE}", *(person for person, groups in PEOPLE.items() if group in groups))

    def change(self, text, command="ldapmodify"):
        """Changes the directory, as who administers it."""
        must(f"{command} -ZZ -x -H ldap://ldap.example.org -D cn=admin,{BASE} -w secret", input=text,
             env={**os.environ, "LDAPTLS_CACERT": f"{self.folder}/ca.pem"})

    def group(self, name, *people):
        self.change(entry(name, objectClass="groupOfNames", member=[f"uid={person},ou=people,{BASE}" for person in people]), "ldapadd")

    def stop(self):
        self.process.kill()
        self.process.wait()


# ---- a provider of OpenID Connect: discovery, the authorization code flow with PKCE, and its keys

ISSUER = "https://login.example.org:8443"
CALLBACK = "https://office.example.org/people/login"
CLIENT, SECRET = "office", "secret+of/office"


def encoded(octets):
    return base64.urlsafe_b64encode(octets).rstrip(b"=").decode()


def decoded(text):
    return base64.urlsafe_b64decode(text + "==")


def number(value, size=None):
    return encoded(value.to_bytes(size or (value.bit_length() + 7) // 8, "big"))


NAMES = {"RS256": "one", "ES256": "curve"}  # of the provider's keys, by what signs with them


def new_key(algorithm):
    if algorithm == "RS256":
        return rsa.generate_private_key(public_exponent=65537, key_size=2048)
    return ec.generate_private_key(ec.SECP256R1())


def as_jwk(algorithm, key):
    """The public part of a key, as JSON."""
    public = key.public_key().public_numbers()
    if algorithm == "RS256":
        return {"kty": "RSA", "use": "sig", "alg": "RS256", "kid": NAMES["RS256"], "n": number(public.n), "e": number(public.e)}
    return {"kty": "EC", "crv": "P-256", "use": "sig", "alg": "ES256", "kid": NAMES["ES256"], "x": number(public.x, 32), "y": number(public.y, 32)}


class Provider:
    """It signs in whoever comes as `claims`, by `algorithm`, with a token that is wrong in the way that `fault` names. It has a key for
    each algorithm at all times."""

    def __init__(self, folder):
        self.own = {name: new_key(name) for name in NAMES}
        self.others = {name: new_key(name) for name in NAMES}
        self.algorithm = "RS256"
        self.short = None  # at which octet a signature with ES256 has a zero
        self.claims, self.fault, self.codes, self.seen, self.fetched = {}, None, {}, [], []
        self.folder, self.server = folder, None

    def start(self):
        provider = self

        class Handler(http.server.BaseHTTPRequestHandler):
            def do_GET(self):
                provider.answer(self, self.path, None)

            def do_POST(self):
                provider.answer(self, self.path, self.rfile.read(int(self.headers["Content-Length"])).decode())

            def log_message(self, *words):
                pass

        self.server = http.server.ThreadingHTTPServer(("127.0.0.1", 8443), Handler)
        context = ssl.SSLContext(ssl.PROTOCOL_TLS_SERVER)
        context.load_cert_chain(f"{self.folder}/login.pem", f"{self.folder}/login.key")
        self.server.socket = context.wrap_socket(self.server.socket, server_side=True)
        threading.Thread(target=self.server.serve_forever, daemon=True).start()

    def stop(self):
        self.server.shutdown()
        self.server.server_close()

    def answer(self, request, target, body):
        path, _, query = target.partition("?")
        self.fetched.append(path)
        fields = dict(urllib.parse.parse_qsl(query if body is None else body))
        routes = {"/.well-known/openid-configuration": self.discovery, "/jwks": self.keys, "/authorize": self.authorize, "/token": self.token, "/stolen": self.stolen}
        status, more = routes[path](fields, request.headers) if path in routes else (404, {})
        request.send_response(status)
        octets = b""
        if status == 302:
            request.send_header("Location", more)
        else:
            octets = json.dumps(more).encode()
            request.send_header("Content-Type", "application/json")
        request.send_header("Content-Length", str(len(octets)))
        request.end_headers()
        request.wfile.write(octets)

    def discovery(self, _fields, _headers):
        return 200, {"issuer": ISSUER, "authorization_endpoint": f"{ISSUER}/authorize", "token_endpoint": f"{ISSUER}/token",
                     "jwks_uri": f"{ISSUER}/jwks", "response_types_supported": ["code"], "subject_types_supported": ["public"],
                     "id_token_signing_alg_values_supported": list(NAMES), "code_challenge_methods_supported": ["S256"],
                     "token_endpoint_auth_methods_supported": ["client_secret_basic"], "scopes_supported": ["openid", "email"]}

    def keys(self, _fields, _headers):
        return 200, {"keys": [as_jwk(name, key) for name, key in self.own.items()]}

    def stolen(self, _fields, _headers):
        """Keys that are nobody's, at a place that a forged token names."""
        return 200, {"keys": [as_jwk(name, key) for name, key in self.others.items()]}

    def authorize(self, fields, _headers):
        """Whoever comes is signed in. What Apache has to send is demanded."""
        self.seen.append(fields)
        if (fields.get("client_id"), fields.get("redirect_uri"), fields.get("response_type")) != (CLIENT, CALLBACK, "code"):
            return 400, {"error": "invalid_request"}
        if fields.get("code_challenge_method") != "S256" or not fields.get("code_challenge") or not fields.get("nonce"):
            return 400, {"error": "invalid_request", "error_description": "neither PKCE nor a nonce"}
        code = secrets.token_urlsafe(16)
        self.codes[code] = {**fields, "claims": dict(self.claims)}
        return 302, f"{CALLBACK}?" + urllib.parse.urlencode({"code": code, "state": fields["state"]})

    def token(self, fields, headers):
        login = self.codes.pop(fields.get("code"), None)
        pair = base64.b64decode(headers.get("Authorization", "Basic ").split(" ")[1]).decode()
        if pair not in (f"{CLIENT}:{SECRET}", f"{CLIENT}:{urllib.parse.quote_plus(SECRET)}"):
            return 401, {"error": "invalid_client"}
        verifier = fields.get("code_verifier", "")
        if login is None or encoded(hashlib.sha256(verifier.encode()).digest()) != login["code_challenge"]:
            return 400, {"error": "invalid_grant"}
        return 200, {"access_token": secrets.token_urlsafe(16), "token_type": "Bearer", "expires_in": 60, "id_token": self.signed(login)}

    def signed(self, login):
        """The token of a login."""
        now = int(time.time())
        claims = {"iss": ISSUER, "aud": CLIENT, "iat": now, "exp": now + 60, "nonce": login["nonce"], **login["claims"]}
        if self.fault in ("iss", "aud", "nonce"):
            claims[self.fault] = {"iss": "https://other.example.org", "aud": "another", "nonce": self.seen[0]["nonce"]}[self.fault]
        if self.fault == "two audiences":
            claims.update(aud=["another", CLIENT], azp="another")
        if self.fault == "expired":
            claims.update(iat=now - 7200, exp=now - 3600)
        if self.fault == "old":
            claims.update(iat=now - 7200)
        claims = {name: value for name, value in claims.items() if self.fault != f"no {name}"}
        return self.forged(claims) or self.token_by(self.algorithm, claims)

    def token_by(self, algorithm, claims, key=None, **fields):
        while True:
            token = jwt.encode(claims, key or self.own[algorithm], algorithm, headers={"kid": NAMES[algorithm], **fields})
            if self.short is None or decoded(token.split(".")[2])[self.short] == 0:
                return token

    def forged(self, claims):
        """A token whose signature or head is wrong, if the fault is one of these."""
        algorithm, other = self.algorithm, self.others[self.algorithm]
        another = next(name for name in NAMES if name != algorithm)
        token = self.token_by(algorithm, claims)
        head, body, sign = token.split(".")
        if self.fault in HEADS:
            return f"{encoded(HEADS[self.fault].replace('ALGORITHM', algorithm).encode())}.{body}.{sign if 'signature' in self.fault else ''}"
        if self.fault in SIGNATURES:
            return f"{head}.{body}.{encoded(SIGNATURES[self.fault](decoded(sign)))}"
        if self.fault == "changed":
            return f"{head}.{encoded(json.dumps({**claims, 'email': 'grace@example.org'}).encode())}.{sign}"
        if self.fault in ("HS256 with the public key", "HS256 with the secret"):
            public = self.own[algorithm].public_key().public_bytes(serialization.Encoding.PEM, serialization.PublicFormat.SubjectPublicKeyInfo)
            text = f"{encoded(json.dumps({'alg': 'HS256', 'typ': 'JWT', 'kid': NAMES[algorithm]}).encode())}.{body}"
            return f"{text}.{encoded(hmac.digest(public if 'public' in self.fault else SECRET.encode(), text.encode(), 'sha256'))}"
        brought = as_jwk(algorithm, other)
        made = {"wrong key": lambda: self.token_by(algorithm, claims, other),
                "unknown key": lambda: self.token_by(algorithm, claims, kid="two"),
                "a key that it brings": lambda: self.token_by(algorithm, claims, other, jwk=brought),
                "a key at a place that it names": lambda: self.token_by(algorithm, claims, other, jku=f"{ISSUER}/stolen"),
                "the provider's other key": lambda: self.token_by(another, claims),
                "the other key under this one's name": lambda: self.token_by(another, claims, kid=NAMES[algorithm]),
                "a longer digest": lambda: longer(algorithm, claims, self.own[algorithm])}
        return made[self.fault]() if self.fault in made else None


# heads of tokens without a signature of the provider
HEADS = {"alg none": '{"alg":"none"}', "alg none, and a signature": '{"alg":"none"}',
         "alg none beside another": '{"alg":"none","kid":"\\"alg\\":\\"ALGORITHM\\""}',
         "alg none above another": '{"alg":"none","x":{"alg":"ALGORITHM"}}', "alg none, after another": '{"alg":"ALGORITHM","alg":"none"}',
         "alg none, before another": '{"alg":"none","alg":"ALGORITHM"}', "alg None": '{"alg":"None"}', "alg none by an escape": '{"alg":"n\\u006fne"}',
         "no alg": '{"typ":"JWT"}'}

ORDER = 0xFFFFFFFF00000000FFFFFFFFFFFFFFFFBCE6FAADA7179E84F3B9CAC2FC632551  # of the group of P-256


def as_der(octets):
    """Both numbers of a signature as X.509 has them, in place of JOSE's 64 octets (RFC 7518 section 3.4)."""
    return encode_dss_signature(int.from_bytes(octets[:32], "big"), int.from_bytes(octets[32:], "big"))


# signatures that are none, made of a right one
SIGNATURES = {"a signature of zeros": lambda octets: bytes(len(octets)), "half a signature": lambda octets: octets[:len(octets) // 2],
              "an empty signature": lambda octets: b"", "a longer signature": lambda octets: octets + b"\0",
              "both numbers the order": lambda octets: ORDER.to_bytes(32, "big") * 2, "a signature in DER": as_der}


def longer(algorithm, claims, key):
    """A token by the same key with SHA-384."""
    if algorithm == "RS256":
        return jwt.encode(claims, key, "RS384", headers={"kid": NAMES[algorithm]})
    head = encoded(json.dumps({"alg": "ES384", "typ": "JWT", "kid": NAMES[algorithm]}).encode())
    text = f"{head}.{encoded(json.dumps(claims).encode())}"
    first, second = decode_dss_signature(key.sign(text.encode(), ec.ECDSA(hashes.SHA384())))
    return f"{text}.{encoded(first.to_bytes(48, 'big') + second.to_bytes(48, 'big'))}"


class Browser:
    """Who follows redirects, and keeps cookies as a browser does."""

    def __init__(self):
        self.cookies = {}

    def get(self, url, method="GET", **fields):
        """A request: status, fields, body."""
        place = urllib.parse.urlsplit(url)
        connection = http.client.HTTPSConnection(place.hostname, place.port or 443, timeout=30, context=ssl._create_unverified_context())
        kept = "; ".join(f"{name}={value}" for (host, name), value in self.cookies.items() if host == place.hostname)
        head = {**({"Cookie": kept} if kept else {}), **fields}
        connection.request(method, f"{place.path}?{place.query}" if place.query else place.path, headers=head)
        got = connection.getresponse()
        for line in got.headers.get_all("Set-Cookie") or []:
            name, _, value = line.split(";")[0].partition("=")
            self.cookies[place.hostname, name] = value
            if not value or "expires=Thu, 01 Jan 1970" in line.lower():
                del self.cookies[place.hostname, name]
        return got.status, got.headers, got.read().decode(errors="replace")

    def visit(self, url, hops=8):
        """A page, by all redirects: the status of each, and the last body."""
        statuses, self.trace = [], []
        while True:
            self.trace.append(url)
            status, fields, body = self.get(url)
            statuses.append(status)
            if status not in (302, 303) or len(statuses) > hops:
                return statuses, body
            url = urllib.parse.urljoin(url, fields["Location"])
