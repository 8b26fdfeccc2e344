"""`push` to a provider of this program, both over files."""
from databases import department_text, group_entry, make_journal, sql, user_entry, user_text
from support import (
    DEPARTMENTS_HEADER, GROUPS_HEADER, NOWHERE, USERS_HEADER, ProgramTest, Provider, full_disk, limited_files,
    resource_id, scimlink, text, writes_of,
)

ANN_CONFIRMED, BOB_CONFIRMED = "user ann confirmed 1", "user bob confirmed 1"
ANN_HELD, BOB_HELD = "user ann held=1 version=1 active=true", "user bob held=1 version=1 active=true"
BOB_LEFT = "user bob held=2 version=2 active=false"


class PushTest(ProgramTest):
    def pushes(self, exchanges, *lines, status=0, errors=(), options=()):
        """A push has this many exchanges with a provider over the store, and prints these lines."""
        if exchanges == 0:
            self.assert_prints(self.site.push(NOWHERE, *options), *lines, status=status, errors=errors)
            return
        with self.serving(exchanges, "--store", self.site.store) as provider:
            self.assert_prints(self.site.push(provider.address, *options), *lines, status=status, errors=errors)

    def join(self):
        """Ann and Bob have joined: each was searched for, and created."""
        self.site.write_users("bob,1,,,,,active", "ann,1,,,,,active")
        self.pushes(4, ANN_CONFIRMED, BOB_CONFIRMED)

    def leave(self):
        """Bob has left: as nothing was seen since the start, he was searched for, and replaced."""
        self.join()
        self.site.write_users("bob,2,,,,,left", "ann,1,,,,,active")
        self.pushes(2, ANN_CONFIRMED, "user bob confirmed 2")


class RecordTest(PushTest):
    def test_joiners(self):
        self.join()
        self.assert_prints(self.site.show_store(), ANN_HELD, BOB_HELD)
        ids = {"ann": resource_id(1), "bob": resource_id(2)}
        entries = [f"user {name} wanted=1 confirmed=1 id={id}" for name, id in ids.items()]
        self.assert_prints(self.site.show_journal(), *entries)

    def test_nothing_to_do(self):
        self.join()
        self.pushes(0, ANN_CONFIRMED, BOB_CONFIRMED)

    def test_each_line_is_one_write(self):
        self.join()
        lines = [f"{line}\n" for line in (ANN_CONFIRMED, BOB_CONFIRMED)]
        self.assertEqual(writes_of(*self.site.push_command(NOWHERE)), lines)

    def test_a_leaver(self):
        self.leave()
        self.assert_prints(self.site.show_store(), ANN_HELD, BOB_LEFT)

    def test_an_older_row_changes_nothing(self):
        self.leave()
        self.site.write_users("bob,1,,,,,active")
        older = ["users record 1: older, 1 is below 2"]
        self.pushes(0, ANN_CONFIRMED, "user bob confirmed 2", errors=older)

    def test_an_older_row_of_a_leaver(self):
        """A file from an old backup says that Bob left; he has come back since."""
        self.leave()
        self.site.write_users("bob,1:1,,,,,active")
        lines = [ANN_CONFIRMED, "user bob confirmed 1:1"]
        self.pushes(2, *lines)
        self.site.write_users("ann,1,,,,,active", "zoe", "bob,2,,,,,left", "Bob,0:3,,,,,active")
        errors = ["users record 2: S2", "users record 3: older, 2 is below 1:1; it says left"]
        errors += ["users record 4: older, 3 is below 1:1"]
        self.pushes(0, *lines, status=1, errors=errors)
        # without the rejected record, the status doesn't say that rows are older
        self.site.write_users("bob,2,,,,,left")
        self.pushes(0, *lines, errors=["users record 1: older, 2 is below 1:1; it says left"])

    def test_an_older_row_before_its_wanted_row(self):
        """The row is beside the one that is wanted once the whole file is taken."""
        self.join()
        self.site.write_users("bob,3,,,,,left", "bob,2,,,,,left", "bob,4,,,,,active")
        lines = [ANN_CONFIRMED, "user bob confirmed 4"]
        self.pushes(2, *lines, errors=["users record 2: older, 2 is below 4; it says left"])
        self.site.write_users("bob,3,,,,,left")
        self.site.write_groups("crew,2,ann")
        self.pushes(2, *lines, "group crew confirmed 2", errors=["users record 1: older, 3 is below 4; it says left"])
        self.site.write_users()
        self.site.write_groups("crew,1,bob zoe")
        self.pushes(0, *lines, "group crew confirmed 2", errors=["groups record 1: older, 1 is below 2"])

    def test_another_row_of_the_same_revision_is_rejected(self):
        self.leave()
        self.site.write_users("bob,2,,,,,active")
        self.pushes(0, ANN_CONFIRMED, "user bob confirmed 2", status=1, errors=["users record 1: S7"])

    def test_a_source_that_counts_anew(self):
        self.join()
        self.site.write_users("bob,57,,,,,active", "ann,1,,,,,active")
        self.pushes(2, ANN_CONFIRMED, "user bob confirmed 57")
        # the new personnel system begins at 1 again; a row of the old one comes late
        self.site.write_users("bob,1:1,,,,,left", "bob,58,,,,,active", "ann,1:1,,,,,active")
        older = ["users record 2: older, 58 is below 1:1"]
        self.pushes(4, "user ann confirmed 1:1", "user bob confirmed 1:1", errors=older)
        held = [f"user {name} held=1:1 version={version} active={on}" for name, version, on in (("ann", 2, "true"), ("bob", 3, "false"))]
        self.assert_prints(self.site.show_store(), *held)
        wanted = [f"user {name} wanted=1:1 confirmed=1:1 id={resource_id(number)}" for number, name in enumerate(("ann", "bob"), 1)]
        self.assert_prints(self.site.show_journal(), *wanted)

    def test_a_department(self):
        content = "SELECT content FROM resource"
        self.site.write_users("bob,1,,,,,active,Sales", header=DEPARTMENTS_HEADER)
        self.pushes(2, BOB_CONFIRMED)
        self.assertEqual(sql(self.site.store, content), [(department_text("bob", 1, "Sales"),)])
        self.site.write_users("bob,1,,,,,active")
        self.pushes(0, BOB_CONFIRMED, status=1, errors=["users record 1: S7"])
        self.site.write_users("bob,2,,,,,active")
        self.pushes(2, "user bob confirmed 2")
        self.assertEqual(sql(self.site.store, content), [(user_text("bob", 2),)])

    def test_a_group(self):
        self.join()
        self.site.write_groups("crew,1,ann bob")
        lines = [ANN_CONFIRMED, BOB_CONFIRMED, "group crew confirmed 1"]
        self.pushes(2, *lines)
        crew = "group crew held=1 version=1 members=2"
        self.assert_prints(self.site.show_store(), ANN_HELD, BOB_HELD, crew)
        self.site.write_groups("crew,2,zoe")
        self.pushes(0, *lines, status=1, errors=["groups record 1: S8 zoe"])

    def test_a_host_by_its_name(self):
        self.site.write_users("bob,1,,,,,active")
        with self.serving(2) as provider:
            self.assert_prints(self.site.push(f"localhost:{provider.port}"), BOB_CONFIRMED)

    def test_a_provider_that_is_away(self):
        self.join()
        self.site.write_users("bob,2,,,,,left", "cid,1,,,,,active")
        with Provider(9, "--store", self.site.store) as provider:
            self.kill(provider)
        self.assert_prints(self.site.push(provider.address), ANN_CONFIRMED, status=3, errors=["connection fault"])
        # the rows were accepted: the next push carries them, whatever its file has
        self.site.write_users()
        self.pushes(4, ANN_CONFIRMED, "user bob confirmed 2", "user cid confirmed 1")
        cid = "user cid held=1 version=1 active=true"
        self.assert_prints(self.site.show_store(), ANN_HELD, BOB_LEFT, cid)


class RejectedTest(PushTest):
    def test_records(self):
        users = ["ann,1", "\xff,1,,,,,active", "a b,1,,,,,active", "ann,0,,,,,active", "ann,1,,,,,gone"]
        many = " ".join(f"u{number}" for number in range(401))
        groups = ["crew,1", "\xff,1,", " crew,1,", "crew,0,", "crew,1,ann  bob", "crew,1,ann Ann", f"crew,1,{many}"]
        self.site.users.write_bytes(text(USERS_HEADER, *users).encode("latin-1"))
        self.site.groups.write_bytes(text(GROUPS_HEADER, *groups).encode("latin-1"))
        errors = [f"users record {n}: {code}" for n, code in enumerate(["S2", "S3", "S4", "S5", "S6"], 1)]
        codes = ["S2", "S3", "S4", "S5", "S4", "S9", "S10"]
        errors += [f"groups record {n}: {code}" for n, code in enumerate(codes, 1)]
        self.pushes(0, status=1, errors=errors)

    def test_headers(self):
        self.site.users.write_text("")
        self.site.groups.write_text(text(USERS_HEADER))
        self.pushes(0, status=1, errors=["users: S1", "groups: S1"])

    def test_a_file_of_many_records(self):
        self.site.write_users(*["bob,1,,,,,active"] * 150_001, "ann,1,,,,,gone")
        self.pushes(2, BOB_CONFIRMED, status=1, errors=["users record 150002: S6"])

    def test_records_beyond_a_full_journal(self):
        names, group_names = [f"u{n:06}" for n in range(100_000)], [f"g{n:05}" for n in range(10_000)]
        users = (user_entry(name, login=name.upper(), confirmed=1, id=name[1:]) for name in names)
        groups = (group_entry(name, name=name.upper(), confirmed=1, id=name) for name in group_names)
        make_journal(self.site.journal, users, groups)
        self.site.write_users("one-more,1,,,,,active")
        self.site.write_groups("more,1,u000000")
        lines = [f"user {name} confirmed 1" for name in names] + [f"group {name} confirmed 1" for name in group_names]
        self.pushes(0, *lines, status=1, errors=["users record 1: S12", "groups record 1: S12"])


class FaultTest(PushTest):
    def test_a_journal_that_cannot_grow(self):
        limits = limited_files(300 * 1024)
        self.site.write_users(*(f"u{place:04},1,,,,,active" for place in range(8_000)))
        self.assert_fault(self.site.push(NOWHERE, **limits), "journal fault J1")
        self.assert_prints(self.site.show_journal())
        names = [f"u{place:03}" for place in range(200)]
        self.site.write_users(*(f"{name},1,,,,,active" for name in names))
        self.assert_fault(self.site.push(NOWHERE), "connection fault")
        with Provider(1000, "--store", self.site.store) as provider:
            # what is printed as confirmed before the fault is kept, and nothing else is
            run = self.site.push(provider.address, **limits)
            self.assert_reports(run, 3, "journal fault J1")
            confirmed = [f"user {name} confirmed 1" for name in names[: len(run.lines)]]
            self.assertEqual(run.lines, confirmed)
            self.assertGreater(len(confirmed), 0)
            kept = [line for line in self.site.show_journal().lines if " confirmed=1 " in line]
            self.assertEqual([line.split(" wanted=")[0] + " confirmed 1" for line in kept], confirmed)
            self.assert_prints(self.site.push(provider.address), *(f"user {name} confirmed 1" for name in names))

    def test_an_output_that_takes_nothing(self):
        self.join()
        with full_disk() as stdout:
            self.assert_fault(self.site.push(NOWHERE, stdout=stdout), "file fault")

    def test_files_that_cannot_be_read(self):
        self.site.write_users("zoe,1,,,,,active")
        options = ["--journal", self.site.journal, "--to", NOWHERE]
        for sources in self.site.unreadable_sources():
            with self.subTest(sources=sources):
                self.assert_fault(scimlink("push", *sources, *options), "file fault")
                self.assert_prints(self.site.show_journal())

    def test_addresses_that_cannot_be_reached(self):
        self.site.write_users("zoe,1,,,,,active")
        for address in ("nobody.invalid:1", NOWHERE):
            with self.subTest(address=address):
                self.assert_fault(self.site.push(address), "connection fault")
