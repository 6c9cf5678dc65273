"""Users of a site's directory (LDAP): whether a password is one's, and in which groups that one is."""

import ssl

import ldap3  # type: ignore
from ldap3.core.exceptions import LDAPException  # type: ignore
from ldap3.utils.conv import escape_filter_chars  # type: ignore
from ldap3.utils.dn import escape_rdn  # type: ignore

from .settings import Ldap


class Directory:
    """Asks the directory as the user who logs in: it needs no account of its own."""

    def __init__(self, given: Ldap) -> None:
        self.given = given
        tls = ldap3.Tls(validate=ssl.CERT_REQUIRED, ca_certs_file=given.authority or None)
        self.server = ldap3.Server(given.url, tls=tls, connect_timeout=given.seconds, get_info=ldap3.NONE)

    def groups_of(self, name: str, password: str) -> tuple[str, ...]:
        """The groups of this user, where the password is right, by their names in lower case; none where it isn't, or the
        directory is away."""
        if not password:
            return ()       # A directory takes no password for a visit without a name.
        who = self.given.who.format(escape_rdn(name))
        try:
            with ldap3.Connection(self.server, who, password, receive_timeout=self.given.seconds, read_only=True) as asked:
                if not asked.bound:
                    return ()
                asked.search(self.given.groups, f"(|(member={escape_filter_chars(who)})(uniqueMember={escape_filter_chars(who)})"
                             f"(memberUid={escape_filter_chars(name)}))", attributes=["cn"])
                return tuple(str(cn).lower() for entry in asked.entries for cn in entry.cn.values)
        except LDAPException as fault:
            print(f"login: the directory: {fault!r}"[:300], flush=True)
            return ()
