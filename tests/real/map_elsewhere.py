"""One relay and three hosts, with the relay's map in LDAP and in PostgreSQL, by the lines of docs/operating/CLUSTER.md
as they stand; slapd and PostgreSQL are Debian's, on the relay."""

import time

from cases import case, equal
from hosts import HOSTS, MAP, RELAY, blocks, known, need_maps, site
from packages import program

HEADING = "## The map in LDAP or PostgreSQL"
AWAY = 5  # seconds that the directory or the database is so
# Debian's slapd as it comes for this domain, with the class of `mailHost` and an index; its password is in a file.
SLAPD = """
printf secret > /root/password
debconf-set-selections << 'END'
slapd slapd/domain string mx.example
slapd shared/organization string mx.example
slapd slapd/password1 password secret
slapd slapd/password2 password secret
slapd slapd/move_old_database boolean true
slapd slapd/no_configuration boolean false
END
DEBIAN_FRONTEND=noninteractive dpkg-reconfigure slapd
systemctl restart slapd
ldapadd -Q -Y EXTERNAL -H ldapi:/// -f /etc/ldap/schema/misc.ldif
ldapmodify -Q -Y EXTERNAL -H ldapi:/// << 'END'
dn: olcDatabase={1}mdb,cn=config
changetype: modify
add: olcDbIndex
olcDbIndex: mail eq
END
"""
ADMINISTRATOR = "-x -H ldap://127.0.0.1 -D cn=admin,dc=mx,dc=example -y /root/password"
ADD = f"ldapadd {ADMINISTRATOR} << 'END'\n{{}}END\n"
GROUP = """dn: ou=users,dc=mx,dc=example
objectClass: organizationalUnit
ou: users

"""
USER = """dn: uid={name},ou=users,dc=mx,dc=example
objectClass: inetOrgPerson
objectClass: inetLocalMailRecipient
uid: {name}
cn: {user}
sn: {user}
mail: {user}@mx.example
mailHost: 192.0.2.{number}:2003

"""
VERSION = "$(ls /usr/lib/postgresql | tail -n 1)"
DATABASE = f"postgresql@{VERSION}-mail"


@case
def in_ldap(folder):
    """three hosts behind one Postfix with its map in LDAP, by the typed lines of 'The map in LDAP or PostgreSQL': an
    unknown user is refused; slapd is stopped, and then silent, while letters come: they wait; a user who is there twice
    waits; one moves under load; each letter is there, and none bounced"""
    for needed in [("slapd", "slapd"), ("ldapmodify", "ldap-utils")]:
        program(*needed)
    need_maps("ldap")
    recipe, move, _, _ = blocks(HEADING)
    with site(folder) as there:
        there.type(RELAY, SLAPD)
        entries = [USER.format(name=user, user=user, number=number) for user, number in HOSTS.items()]
        there.type(RELAY, ADD.format("".join([GROUP, *entries])))
        begin_with(there, recipe)
        there.type(RELAY, ADD.format(USER.format(name="other", user="anna", number=12)))
        equal(known(there, "anna"), 451)
        there.type(RELAY, f"ldapdelete {ADMINISTRATOR} uid=other,ou=users,dc=mx,dc=example")
        equal(known(there, "anna"), 250)
        return look_at(there, "slapd", move)


@case
def in_postgresql(folder):
    """three hosts behind one Postfix with its map in PostgreSQL, by the typed lines of 'The map in LDAP or PostgreSQL':
    an unknown user is refused; the database is stopped, and then silent, while letters come: they wait; a user can't be
    there twice; one moves under load; each letter is there, and none bounced"""
    program("pg_createcluster", "postgresql")
    need_maps("pgsql")
    _, _, recipe, move = blocks(HEADING)
    with site(folder) as there:
        there.type(RELAY, f"pg_createcluster --port 5432 {VERSION} mail; systemctl start {DATABASE}")
        begin_with(there, recipe)
        twice = "INSERT INTO hosts VALUES ('anna@mx.example', '192.0.2.12:2003')"
        status, said = there.relay.run(f'runuser -u postgres -- psql -q mail -c "{twice}"')
        equal((status, "duplicate key" in said), (1, True))
        return look_at(there, DATABASE, move, "postfix reload")


def begin_with(there, recipe):
    """By the lines of the page, and without the map of before."""
    there.type(RELAY, f"rm {MAP} {MAP}.lmdb")
    there.type(RELAY, recipe)
    equal([known(there, user) for user in ["anna", "dora"]], [250, 550])
    there.send("first", 90)
    there.wait(there.is_sent)


def look_at(there, unit, move, once_it_is_back=""):
    stopped = goes_away(there, "stopped", f"systemctl stop {unit}", f"systemctl start {unit}\n{once_it_is_back}")
    kill = "systemctl kill --signal={} " + unit
    silent = goes_away(there, "silent", kill.format("STOP"), kill.format("CONT"))
    moves(there, move)
    found = there.equal_all(HOSTS | {"anna": 12})
    taken = f"taken again {stopped:.1f} s after a stop, {silent:.1f} s after silence"
    return f"{found}; put off {there.put_off} times; {taken}"


def goes_away(there, first, end, begin):
    """By these lines, while letters come; the seconds until Postfix takes a letter after it is back."""
    with there.client(first, 600, 0.01, again=1):
        time.sleep(1)
        there.type(RELAY, end)
        hand_in(there, f"{first}-by-sendmail")
        time.sleep(AWAY)
        there.type(RELAY, begin)
        since = time.monotonic()
        there.wait(lambda: known(there, "anna") == 250, 120)
        taken = time.monotonic() - since
    there.type(RELAY, "postqueue -f")
    there.wait(there.is_sent, 120)
    return taken


def hand_in(there, first):
    """A letter for each user by sendmail, which asks no map."""
    for user in HOSTS:
        name = f"{first}-{user}"
        text = f"Subject: {name}\\nMessage-ID: <{name}@a.example>\\n\\nend of {name}\\n"
        there.type(RELAY, f"printf '{text}' | sendmail -f carl@a.example {user}@mx.example")
        there.told.append((user, name))


def moves(there, move):
    """anna, as the page has it for the map in LMDB, but for the lines that change that."""
    begin, hold, copy, place, go_on, end = blocks("## A user moves")
    there.open_ssh(11, 12)
    with there.client("meanwhile", 600, 0.01):
        there.type(12, begin)
        there.type(RELAY, instead(hold, move))
        there.type(11, copy)
        there.type(12, place)
        there.type(RELAY, instead(go_on, move.replace("127.0.0.1:9", "192.0.2.12:2003")))
        there.wait(lambda: there.found("anna", 12)["meanwhile-0"])
        there.type(11, end)
    there.wait(there.is_sent)


def instead(lines, move):
    """These, with `move` in place of what changes the map in LMDB."""
    others = [line for line in lines.splitlines() if not line.startswith(("sed ", "postmap "))]
    equal((others[0], len(lines.splitlines()) - len(others)), ("(set -e", 2))
    return "\n".join([others[0], *move.splitlines(), *others[1:]])


for one in [in_ldap, in_postgresql]:
    one.seconds = 400
