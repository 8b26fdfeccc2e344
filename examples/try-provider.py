#!/usr/bin/env python3
"""Tries whether a SCIM provider meets the conditions of `scimlink push`.

It creates a user with a name that nobody has, replaces that user some times, and leaves the user inactive. It changes
no other account. It prints a line for each condition: `met`, `not met` or `can't be tried`, and what that means. Then
it prints how to push to this provider: whether the source extension and versions are kept decides about
`--provider-keeps`. All other conditions must be met.

Status: 0 if they are, 1 if not, 2 if the arguments are invalid, 3 if the provider can't be reached.
"""
import collections
import secrets
import shlex
import sys
import urllib.parse

from provider_calls import (
    DEFAULT_HOST, DEFAULT_PATH, ENTERPRISE, SOURCE, USER, Provider, arguments, attribute, found_in, is_strong, is_tag,
    name_of, printed, revision_of, version_of,
)

MET, NOT_MET, UNTRIED = "met", "not met", "can't be tried"
NO_USER = UNTRIED, "There is no user to try it with"
UNNOTICED = "push can't notice it: a late message can switch a leaver on"
LATER = "That confirms with --provider-keeps versions or nothing. Else the next push confirms: {}"
DEPARTMENT = "Trials"
# The families that the user gets at the end, by which it is seen whether a version comes back
FAMILIES = ("Try", "Try", "Trial", "Try")
# A version that no user has
NO_VERSION = '"scimlink-try"'
# The revisions that the user gets, and then one with an epoch
FIRST, SECOND, IN_EPOCH = (0, 1), (0, 2), (1, 1)
# The most bytes of a body that `push` reads
BODY_LIMIT = 8_388_608
# A creation that is refused with one of these isn't refused for its content
NOT_FOR_CONTENT = {401, 403, 404, 409, 429}

# A user of ours as an answer shows it: the revision that it should have, the version that is stated, and whether a
# search shows it
Shown = collections.namedtuple("Shown", "resource revision version is_found")


def is_success(answer):
    return answer.status in range(200, 300)


def is_silent(answer, *statuses):
    """Whether an answer has one of these statuses and no body."""
    return answer.status in statuses and answer.body == b""


class Trial:
    """The requests about one user, and what the provider answered to each; None: it wasn't asked."""

    def __init__(self, provider, name):
        self.provider, self.name = provider, name
        self.extensions = [ENTERPRISE, SOURCE]
        self.absent = self.groups = self.created = self.found = self.in_capitals = None
        self.twice = self.replaced = self.late = self.after = self.in_epoch = None
        self.answers = []  # all of them
        self.shown = []  # the user as each of them showed it that should have a certain revision
        self.versions = []  # that the user had after the last replacements
        self.users = {}  # by its id, each user of ours as it was shown last
        self.tags = {}  # by its id, the version that each user of ours has, as far as is known
        self.may_exist = False  # whether a creation was sent

    def run(self):
        self.absent = self.note(self.provider.search(self.name))
        self.groups = self.note(self.provider.search(self.name, "Groups", "displayName"))
        self.created = self.create()
        self.found = self.note(self.provider.search(self.name), FIRST)
        if not self.users and is_success(self.created) and "Location" in self.created.fields:
            id = urllib.parse.unquote(self.created.fields["Location"].rpartition("/")[2])
            self.note(self.provider.read(id), FIRST)
        if not self.users:
            return
        self.in_capitals = self.note(self.provider.search(self.name.upper()))
        self.twice = self.note(self.provider.ask("POST", "Users", self.content(FIRST, False, self.name.upper())))
        id, before = self.id, self.version()
        self.replaced = self.replace(id, SECOND, False, before)
        if before is not None:
            # a message that was sent before that, and comes late
            old = before if is_success(self.replaced) else NO_VERSION
            self.late = self.replace(id, FIRST, True, old)
        self.after = self.note(self.provider.search(self.name), self.revision_after())
        if SOURCE in self.extensions:
            self.in_epoch = self.replace(id, IN_EPOCH, False, self.version())
            if is_success(self.in_epoch):
                self.note(self.provider.read(id), IN_EPOCH)
        for family in FAMILIES:
            replaced = self.put(id, self.content(SECOND, False, family=family), self.version())
            self.note(self.provider.read(id))
            self.versions.append(self.version() if is_success(replaced) else None)

    # ---- requests

    def content(self, revision, active, name=None, family="Try"):
        """A user as `push` sends it."""
        epoch, number = revision
        source = {"epoch": epoch, "revision": number} if epoch else {"revision": number}
        extensions = {ENTERPRISE: {"department": DEPARTMENT}, SOURCE: source}
        return {
            "active": active,
            "emails": [{"primary": True, "type": "work", "value": f"{self.name}@example.com"}],
            "externalId": self.name,
            "name": {"familyName": family, "givenName": "Scimlink"},
            "schemas": [USER, *self.extensions],
            "userName": name or self.name,
        } | {it: extensions[it] for it in self.extensions}

    def create(self):
        """Creates the user, without the extensions for which the provider refuses it."""
        first = None
        for extensions in ([ENTERPRISE, SOURCE], [SOURCE], [ENTERPRISE], []):
            self.extensions, self.may_exist = extensions, True
            answer = self.note(self.provider.ask("POST", "Users", self.content(FIRST, True)), FIRST)
            first = first or answer
            if answer.status < 400:
                return answer
            if answer.status >= 500 or answer.status in NOT_FOR_CONTENT:
                break
        self.extensions = [ENTERPRISE, SOURCE]
        return first

    def replace(self, id, revision, active, version):
        return self.put(id, self.content(revision, active), version, revision)

    def put(self, id, content, version, revision=None):
        answer = self.provider.replace(id, content, version)
        if is_success(answer):
            self.tags.pop(id, None)
            if answer.etag is not None:
                self.tags[id] = answer.etag
        return self.note(answer, revision)

    # ---- answers

    def is_ours(self, resource):
        id = attribute(resource, "id")
        return name_of(resource) == self.name and isinstance(id, str) and id != ""

    def note(self, answer, revision=None):
        """Keeps an answer. Each user of ours that it shows should have this revision, if one is given."""
        self.answers.append(answer)
        found = found_in(answer)
        for resource in filter(self.is_ours, found or [answer.content]):
            version, id = version_of(resource), attribute(resource, "id")
            if not found and not is_tag(version):
                version = answer.etag or version
            self.users[id] = resource
            if isinstance(version, str) and version.isprintable():
                self.tags[id] = version
            if revision and self.is_first(resource):
                self.shown.append(Shown(resource, revision, version, bool(found)))
        return answer

    @property
    def id(self):
        """The id of the user that was created first."""
        return next(iter(self.users))

    def is_first(self, resource):
        return attribute(resource, "id") == self.id

    def version(self):
        """The version that the user has; None if none is shown."""
        for ask, what in ((self.provider.read, self.id), (self.provider.search, self.name)):
            if self.id not in self.tags:
                self.note(ask(what))
        return self.tags.setdefault(self.id, None)

    def revision_after(self):
        """The revision that the user should have after the late message; None if that wasn't refused."""
        if self.late is None or self.late.status < 400:
            return None
        return SECOND if is_success(self.replaced) else FIRST

    def is_undone(self):
        """Whether the late message took the place of the replacement."""
        users = filter(self.is_first, found_in(self.after) or [])
        is_active = any(attribute(it, "active") is not False for it in users)
        return is_success(self.late) or is_success(self.replaced) and is_active

    def shows(self, answer, status):
        """Whether an answer has this status and shows the user."""
        schemas = attribute(answer.content, "schemas")
        has_schema = isinstance(schemas, list) and USER.lower() in [str(it).lower() for it in schemas]
        return answer.status == status and self.is_ours(answer.content) and has_schema

    def finds(self, answer):
        """Whether a search found the user, and no other."""
        found = found_in(answer) or []
        return len(found) == 1 and self.is_ours(found[0])

    # ---- the end

    def leave(self):
        """Switches off each user that was created: whether all of them are shown as inactive."""
        return all([self.is_off(id) or self.switch_off(id) for id in list(self.users)])

    def leave_after_fault(self):
        """The same after a run that ended early, whose last request may have created the user."""
        try:
            self.note(self.provider.search(self.name))
            return self.leave()
        except OSError:
            return False

    def is_off(self, id):
        self.note(self.provider.read(id))
        return attribute(self.users[id], "active") is False

    def switch_off(self, id):
        user = self.users[id]
        version = version_of(user) if is_strong(version_of(user)) else None
        content = self.content(SECOND, False, attribute(user, "userName"))
        self.note(self.provider.replace(id, content, version))
        return self.is_off(id)


# ---- the conditions: of each whether it is met, and what that means


def searches(trial):
    absent, groups = found_in(trial.absent), found_in(trial.groups)
    if trial.absent.status in (401, 403):
        return NOT_MET, f"The provider answers {trial.absent.detail}: it wants a token, which a proxy adds"
    if absent is None:
        return NOT_MET, f"A search for a user is answered {trial.absent.detail}. Users stay unconfirmed: C4, K2 or K3"
    if absent:
        return NOT_MET, "A search for a name that nobody has finds users. Users stay unconfirmed: C1"
    if groups is None:
        return NOT_MET, f"A search for a group is answered {trial.groups.detail}. Only users can be pushed"
    if groups:
        return NOT_MET, "A search for a name that no group has finds groups. Only users can be pushed"
    if not trial.users and not is_success(trial.created):
        return UNTRIED, "Nobody is found where nobody is, but the provider didn't create a user to find"
    if not trial.finds(trial.found):
        return NOT_MET, "The user that was created isn't found by its name. Users stay unconfirmed"
    return MET, "push finds users and groups by their names"


def one_of_a_name(trial):
    if not trial.users:
        return NO_USER
    if is_success(trial.twice) and len(trial.users) == 1:
        return NOT_MET, f"The creation of a name that is taken replaced the user. {UNNOTICED}"
    if is_success(trial.twice):
        return NOT_MET, "A second user of the name was created, in capitals. Then both stay unconfirmed: C1"
    if trial.twice.status != 409:
        told = f"The creation of a name that is taken is answered {trial.twice.detail}, and not 409"
        return NOT_MET, f"{told}. A record that somebody else just created is unconfirmed until the next push: C4"
    if not trial.finds(trial.in_capitals):
        return NOT_MET, "A search in capitals doesn't find the user. A login that is spelled anew stays unconfirmed"
    return MET, "push can't create a second user of a name. Groups weren't tried"


def source_extension(trial):
    if trial.users and SOURCE not in trial.extensions:
        return NOT_MET, "A user with it is refused. Nobody gets an account, and leavers keep theirs: C4"
    if not trial.shown:
        return NO_USER
    revisions = [(revision_of(it.resource), it.revision) for it in trial.shown]
    if any(shown is None for shown, _ in revisions):
        return NOT_MET, "The user is shown without its revision. Joiners get an account, and leavers keep it: C1"
    if any(shown != wanted for shown, wanted in revisions if wanted != IN_EPOCH):
        return NOT_MET, "The user is shown with another revision than it was given. Leavers keep their accounts"
    if not is_success(trial.in_epoch):
        told = f"But a revision with an epoch is answered {trial.in_epoch.detail}: use revisions without one"
        return MET, f"push sees which revision an account has. {told}"
    in_epoch = [shown for shown, wanted in revisions if wanted == IN_EPOCH]
    if set(in_epoch) != {IN_EPOCH}:
        return MET, "push sees which revision an account has. But epochs aren't kept: use revisions without one"
    return MET, "push sees which revision an account has, also with an epoch"


def enterprise_extension(trial):
    if not trial.users:
        return NO_USER
    if ENTERPRISE not in trial.extensions:
        return NOT_MET, "A user with a department is refused. Rows with departments stay unconfirmed: C4"
    if attribute(attribute(trial.users[trial.id], ENTERPRISE), "department") != DEPARTMENT:
        return NOT_MET, "The department is dropped. Rows with departments are confirmed: push can't notice it"
    return MET, "Accounts get their departments"


def if_match(trial):
    if not trial.users:
        return NO_USER
    if trial.late is None:
        return UNTRIED, "The user is shown without a version"
    if trial.is_undone():
        return NOT_MET, f"An old version was replaced. {UNNOTICED}"
    if trial.late.status != 412:
        told = f"An old version is answered {trial.late.detail}, and not 412"
        return NOT_MET, f"{told}. A record that somebody else just changed is unconfirmed until the next push: C4"
    if trial.replaced.status == 412:
        return NOT_MET, "The version that the user has is refused. Changed records stay unconfirmed"
    if not is_success(trial.replaced):
        return UNTRIED, "A version that nobody has is refused, but so is the present one"
    return MET, "A late message can't undo a newer one"


def version(trial):
    if not trial.shown:
        return NO_USER
    found = [it.version for it in trial.shown if it.is_found]
    versions = [it.version for it in trial.shown if it.version is not None]
    if None in found:
        return NOT_MET, "A search shows the user without meta.version. Accounts can't be replaced: C2"
    if not versions:
        return NOT_MET, "No answer shows a version of the user. Accounts can't be replaced: C2"
    other = next((printed(it) for it in versions if not is_strong(it)), None)
    if other is not None and other.startswith("W/"):
        return NOT_MET, f"The version {other} is weak. New records are confirmed, and changed ones may stay unconfirmed"
    if other is not None:
        return NOT_MET, f'The version {other} isn\'t an entity tag, as "1" is. Accounts can\'t be replaced: C2'
    if is_success(trial.replaced) and versions[0] == versions[-1]:
        return NOT_MET, f"The version stays when the user changes. {UNNOTICED}"
    alone = [it for it in (trial.created, trial.replaced) if trial.is_ours(it.content)]
    if not all(is_tag(version_of(it.content)) or it.etag for it in alone):
        told = "But a creation or a replacement is answered without one"
        return MET, f"push can name the version that it replaces. {told}. {LATER.format('C2')}"
    return MET, "push can name the version that it replaces"


def new_versions(trial):
    if not trial.users:
        return NO_USER
    if not trial.versions or None in trial.versions:
        return UNTRIED, "The user wasn't replaced and shown with a version each time"
    if trial.versions[0] == trial.versions[1]:
        return NOT_MET, f"A replacement that changes nothing keeps the version. With versions alone, {UNNOTICED}"
    if len(set(trial.versions)) < len(trial.versions):
        return NOT_MET, f"A version comes back with its content. With versions alone, {UNNOTICED}"
    return MET, "Each replacement has a version of its own"


def content_length(trial):
    for answer in trial.answers:
        if not answer.status:
            return NOT_MET, "What came isn't one answer of HTTP/1.1. Records stay unconfirmed: K1 or H10"
        lengths = answer.fields.get_all("Content-Length") or []
        codings = [coding.lower() for coding in answer.fields.get_all("Transfer-Encoding") or []]
        has_end = (len(lengths), codings) in ((1, []), (0, ["chunked"]))
        if answer.status not in (204, 304) and not has_end:
            told = f"An answer with status {answer.status} has no single length, and doesn't come in chunks"
            return NOT_MET, f"{told}. Records stay unconfirmed: K1"
        if len(answer.body) > BODY_LIMIT:
            return NOT_MET, f"An answer has {len(answer.body)} bytes of body. Records stay unconfirmed: K1"
    return MET, "push can read the answers to their ends"


def created_and_replaced(trial):
    if not is_success(trial.created):
        return NOT_MET, f"The creation of a user is answered {trial.created.detail}. Nobody gets an account"
    until = "is unconfirmed until the push after that: K1, K2 or K3"
    if not trial.shows(trial.created, 201) and not is_silent(trial.created, 201):
        told = f"A creation is answered {trial.created.detail}, and not 201 with the user or without a body"
        return NOT_MET, f"{told}. A new record {until}"
    if trial.replaced.status >= 400:
        return NOT_MET, f"A replacement is answered {trial.replaced.detail}. Changed records stay unconfirmed"
    if not trial.shows(trial.replaced, 200) and not is_silent(trial.replaced, 200, 204):
        told = f"A replacement is answered {trial.replaced.detail}, and not 200 with the user or without a body"
        return NOT_MET, f"{told}. A changed record {until}"
    silent = []
    if is_silent(trial.created, 201):
        silent.append("A creation is answered 201 without a body. push then searches for the user. With "
                      "--provider-keeps versions or nothing, the next push confirms the record")
    if is_silent(trial.replaced, 200, 204):
        silent.append(f"A replacement is answered {trial.replaced.status} without a body. {LATER.format('K2')}")
    return MET, ". ".join(silent) or "push sees in the answer what became of the user"


CONDITIONS = {
    "searches": searches,
    "one user of a name": one_of_a_name,
    "source extension": source_extension,
    "enterprise extension": enterprise_extension,
    "If-Match": if_match,
    "strong version": version,
    "new versions": new_versions,
    "Content-Length": content_length,
    "201 and 200": created_and_replaced,
}


# The options of each kind of provider, and the conditions that it needn't meet
KINDS = {
    (): {"new versions"},
    ("--provider-keeps versions",): {"source extension"},
    ("--provider-keeps nothing",): {"source extension", "If-Match", "strong version", "new versions"},
}


# ---- the run


def push_line(provider, unmet):
    """How to push to this provider, which doesn't meet these conditions; None if it isn't safe."""
    host, port = provider.address
    words = ["scimlink push --users FILE --journal FILE --to", f"{f'[{host}]' if ':' in host else host}:{port}"]
    if provider.authority != DEFAULT_HOST:
        words.append(f"--base http://{provider.authority}/v2")
    if provider.path != DEFAULT_PATH:
        words.append(f"--path {shlex.quote(provider.path)}")
    for kind, may_be_unmet in KINDS.items():
        if unmet <= may_be_unmet:
            return " ".join([*words, *kind])
    return None


def report(trial, is_left_off):
    """Prints the lines: the status."""
    verdicts = {name: condition(trial) for name, condition in CONDITIONS.items()}
    for name, (verdict, meaning) in verdicts.items():
        print(f"{verdict}: {name}. {meaning}")
    unmet = {name for name, (verdict, _) in verdicts.items() if verdict != MET}
    line = push_line(trial.provider, unmet)
    print(f"push by: {line}" if line else "don't rely on push with this provider")
    if not trial.users:
        is_made = is_success(trial.created)
        print(f"the user {trial.name} isn't shown: switch it off by hand" if is_made else "no user was created")
    elif is_left_off:
        print(f"the user {trial.name} is left inactive")
    else:
        print(f"the user {trial.name} isn't shown as inactive: switch it off by hand. Leavers may keep their accounts")
    return 0 if is_left_off and line else 1


def main():
    options = arguments(__doc__).parse_args()
    trial = Trial(Provider(options), f"scimlink-try-{secrets.token_hex(4)}")
    try:
        trial.run()
        return report(trial, trial.leave())
    except OSError as fault:
        print(f"no connection: {fault.strerror or fault}", file=sys.stderr)
    except KeyboardInterrupt:
        print("stopped", file=sys.stderr)
    if trial.may_exist and not trial.leave_after_fault():
        print(f"the user {trial.name} may be active: switch it off by hand", file=sys.stderr)
    return 3


if __name__ == "__main__":
    sys.exit(main())
