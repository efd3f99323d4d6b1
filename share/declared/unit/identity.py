"""The user, the group and the supplementary groups of a service."""

from __future__ import annotations

from dataclasses import dataclass, field

from ..places import Bears, Place
from ..users import User, Users, is_number
from . import dynamic
from .settings import Settings

USER_FAILS, GROUP_FAILS = "217/USER", "216/GROUP"


@dataclass
class Identity:
    """Who a service is. `user` and `group` are None where nothing sets them; `base` are the groups
    that initgroups(3) gives, `more` those of SupplementaryGroups=."""

    user: int | None = None
    group: int | None = None
    base: list[int] = field(default_factory=list)
    more: list[int] = field(default_factory=list)
    dynamic: bool = False


class Finder:
    """Looks the names of a service up."""

    def __init__(self, settings: Settings, users: Users) -> None:
        self.settings = settings
        self.users = users
        self.found = Identity(dynamic=settings.truth("DynamicUser"))
        self.entry: User | None = None

    def fail(self, step: str, what: str, word: str, key: str) -> None:
        """A name that nobody has."""
        text = f"there is no {what} {word} here"
        self.settings.script.fail(step, text, *self.settings.places(key))

    def dynamic_number(self, name: str) -> int:
        """The number of a dynamic user, or of its group."""
        number = dynamic.number_of(name)
        text = (
            f"the number of the dynamic user {name}: {number} if it is free and no StateDirectory= "
            f"is another's, else another one from {dynamic.FIRST} to {dynamic.LAST}"
        )
        places = self.settings.places("DynamicUser", "User")
        self.settings.script.doubt("dynamic user", text, *places, bears=Bears.IDS)
        return number

    def find_user(self, word: str) -> None:
        """User=, by name or number."""
        self.entry = self.users.user(word)
        if self.entry is not None:
            self.found.user, self.found.group = self.entry.number, self.entry.group
        elif self.found.dynamic:
            self.found.user = int(word) if is_number(word) else self.dynamic_number(word)
        else:
            self.fail(USER_FAILS, "user", word, "User")
            self.found.user = self.found.group = 0

    def find_group(self, word: str) -> None:
        """Group=, by name or number. A dynamic one that is a user's name has that user's number."""
        entry = self.users.group(word)
        user = None if is_number(word) else self.users.user(word)
        if entry is not None:
            self.found.group = entry.number
        elif self.found.dynamic and user is not None:
            self.found.group = user.number
        elif self.found.dynamic:
            self.found.group = int(word) if is_number(word) else self.dynamic_number(word)
        else:
            self.fail(GROUP_FAILS, "group", word, "Group")
            self.found.group = 0

    def find_more(self) -> None:
        """SupplementaryGroups=, looked up whatever the prefix. Quotes are letters there."""
        for word in self.settings.plain_words("SupplementaryGroups"):
            entry = self.users.group(word)
            if entry is None:
                self.fail(GROUP_FAILS, "group", word, "SupplementaryGroups")
            else:
                self.found.more.append(entry.number)

    def find(self) -> Identity:
        """All of it. A user whose group is 0 has no groups of initgroups(3) set."""
        user, group = self.settings.last("User"), self.settings.last("Group")
        if self.found.dynamic:
            user = user or dynamic.name_of(self.settings.name.prefix)
            group = group or user
        if user:
            self.find_user(user)
        if group:
            self.find_group(group)
        if user and self.found.group:
            own = self.found.group
            names = self.users.groups_of(self.entry.name, own) if self.entry else [own]
            self.found.base = names
        self.find_more()
        return self.found


def places(settings: Settings) -> tuple[Place, ...]:
    """Where the user and the group are set."""
    return settings.places("User", "Group", "DynamicUser")
