"""What try-provider.py and adopt.py share: their arguments, and requests to a provider as `scimlink push` sends them.

The tools speak plain HTTP and send no credentials, as `push` does: give both the same address, and the same proxy.
"""
import argparse
import contextlib
import dataclasses
import http.client
import json
import re
import string
import time
import urllib.parse

USER = "urn:ietf:params:scim:schemas:core:2.0:User"
ENTERPRISE = "urn:ietf:params:scim:schemas:extension:enterprise:2.0:User"
SOURCE = "urn:example:params:scim:schemas:extension:source:1.0"
# The host of the base, and the path of the service, unless the arguments name others
DEFAULT_HOST, DEFAULT_PATH = "localhost:8080", "/v2"
SCIM_TYPE = "application/scim+json"
# Seconds that a connection, or a part of an answer, may take
TIME_LIMIT = 30
# Seconds to wait before each further try of a request that came too soon, and the most that a provider may ask for
PAUSES, LONGEST_PAUSE = (1, 2, 4, 8, 16), 60

ADDRESS = re.compile(r"(?:\[([0-9A-Fa-f:.]+)\]|([^\s:\[\]]+)):(\d{1,5})")
BASE = re.compile(r"http://([^\s/]+)/v2")
PATH = re.compile(r"(?:/(?:[\w.~!$&'()*+,;=:@-]|%[0-9A-Fa-f]{2})+)+", re.ASCII)
# A version that If-Match can name
STRONG = re.compile(r'"[\x21\x23-\x7e\x80-\U0010ffff]*"')
# An entity tag (RFC 7232 section 2.3), and the most bytes of one that `push` reads
TAG, TAG_LIMIT = re.compile(f"(?:W/)?{STRONG.pattern}"), 256
SMALL = str.maketrans(string.ascii_uppercase, string.ascii_lowercase)


# ---- arguments


def address(text):
    """HOST:PORT: a name, an IPv4 address or an IPv6 address in brackets, and a port."""
    form = ADDRESS.fullmatch(text)
    if not form or not 1 <= int(form[3]) <= 65535:
        raise argparse.ArgumentTypeError(f"{text!r} isn't HOST:PORT")
    return form[1] or form[2], int(form[3])


def authority(text):
    """The host of a base, which `push` sends in `Host`."""
    form = BASE.fullmatch(text)
    if not form:
        raise argparse.ArgumentTypeError(f"{text!r} isn't http://HOST/v2")
    return form[1]


def service_path(text):
    """The path of a service, as `push` takes it."""
    if not PATH.fullmatch(text):
        raise argparse.ArgumentTypeError(f"{text!r} isn't like /scim/v2")
    return text


def arguments(description):
    """A parser of the arguments that both tools have."""
    how = argparse.RawDescriptionHelpFormatter
    parser = argparse.ArgumentParser(description=description, formatter_class=how, allow_abbrev=False)
    parser.add_argument("--to", type=address, required=True, metavar="HOST:PORT", help="the address of the provider")
    base = {"type": authority, "default": f"http://{DEFAULT_HOST}/v2", "metavar": "URL"}
    parser.add_argument("--base", **base, help="the base of the service; without it %(default)s")
    path = {"type": service_path, "default": DEFAULT_PATH, "metavar": "PATH"}
    parser.add_argument("--path", **path, help="the path of the provider's service; without it %(default)s")
    return parser


# ---- JSON, in which the names of attributes have letters in any case


def small(text):
    """This text with its ASCII letters in small."""
    return text.translate(SMALL)


def attribute(content, name):
    """The value of an attribute; None if there is none."""
    members = content.items() if isinstance(content, dict) else ()
    return next((value for key, value in members if small(key) == small(name)), None)


def name_of(resource):
    """The name of a user, in small letters."""
    name = attribute(resource, "userName")
    return small(name) if isinstance(name, str) else None


def printed(text):
    """A text of somebody else, as it can be printed."""
    return str(text).encode("unicode_escape").decode()


def version_of(resource):
    return attribute(attribute(resource, "meta"), "version")


def is_strong(version):
    return isinstance(version, str) and bool(STRONG.fullmatch(version))


def is_tag(version):
    """Whether `push` takes this for a version."""
    is_text = isinstance(version, str) and version.isprintable()
    return is_text and bool(TAG.fullmatch(version)) and len(version.encode()) <= TAG_LIMIT


def revision_of(resource):
    """The epoch and the number of a user's revision; None if there is none."""
    source = attribute(resource, SOURCE)
    epoch, number = attribute(source, "epoch"), attribute(source, "revision")
    return (epoch or 0, number) if type(number) is int and type(epoch or 0) is int else None


def found_in(answer):
    """The resources that a search found, if its answer is a list of that many; None otherwise."""
    total = attribute(answer.content, "totalResults")
    resources = attribute(answer.content, "Resources") or []
    is_list = answer.status == 200 and type(total) is int and isinstance(resources, list)
    return resources if is_list and total == len(resources) else None


# ---- requests


@dataclasses.dataclass
class Answer:
    """A provider's answer. Its status is 0 if what came isn't an answer of HTTP/1.1."""

    status: int = 0
    fields: http.client.HTTPMessage = None
    body: bytes = b""

    @property
    def content(self):
        """The object of JSON that is the body; None if it isn't one."""
        with contextlib.suppress(ValueError):
            content = json.loads(self.body)
            return content if isinstance(content, dict) else None

    @property
    def etag(self):
        """The version that the field `ETag` states; None if it isn't there once, or isn't an entity tag."""
        values = self.fields.get_all("ETag") if self.fields else None
        with contextlib.suppress(UnicodeError):
            tag = values[0].encode("latin-1").decode() if values and len(values) == 1 else None
            return tag if is_tag(tag) else None

    @property
    def detail(self):
        """The status, and what a message of SCIM says about it."""
        detail = attribute(self.content, "detail")
        what = str(self.status or "no HTTP")
        return f"{what}, {json.dumps(detail)}" if isinstance(detail, str) and detail else what


class Provider:
    """A provider at an address. Each request has a connection of its own, and may raise OSError."""

    def __init__(self, options):
        self.address, self.authority, self.path = options.to, options.base, options.path

    def ask(self, method, path, content=None, version=None):
        """The answer to a request with this body, under this version. It is sent again if the provider was busy."""
        for pause in PAUSES:
            answer = self.exchange(method, path, content, version)
            if answer.status not in (429, 503):
                return answer
            wanted = answer.fields.get("Retry-After", "")
            time.sleep(min(int(wanted), LONGEST_PAUSE) if wanted.isdecimal() else pause)
        return self.exchange(method, path, content, version)

    def exchange(self, method, path, content, version):
        fields = {"Host": self.authority, "Accept": SCIM_TYPE, "Connection": "close"}
        body = None if content is None else json.dumps(content).encode()
        if body is not None:
            fields |= {"Content-Length": str(len(body)), "Content-Type": SCIM_TYPE}
        if version is not None:
            fields["If-Match"] = version
        with contextlib.closing(http.client.HTTPConnection(*self.address, timeout=TIME_LIMIT)) as connection:
            connection.putrequest(method, f"{self.path}/{path}", skip_host=True, skip_accept_encoding=True)
            for name, value in fields.items():
                connection.putheader(name, value.encode())
            try:
                connection.endheaders(body)
                response = connection.getresponse()
                return Answer(response.status, response.headers, response.read())
            except http.client.RemoteDisconnected:
                raise
            except http.client.HTTPException:
                return Answer()

    def search(self, name, kind="Users", attribute_name="userName"):
        return self.ask("GET", f"{kind}?" + urllib.parse.urlencode({"filter": f'{attribute_name} eq "{name}"'}))

    def read(self, id):
        return self.ask("GET", user_path(id))

    def replace(self, id, content, version=None):
        return self.ask("PUT", user_path(id), content, version)


def user_path(id):
    return f"Users/{urllib.parse.quote(id, safe='')}"
