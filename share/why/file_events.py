"""The events of a report that open, close and change files, or ask how one stands."""

from __future__ import annotations

from .records import Decision, Label
from .file_rules import Version
from .script import File


class FileEvents:
    """What a journal keeps of files: how they stand, and which are open."""

    line: int
    whole: int | None
    labels: dict[str, Label]
    infos: dict[str, File | Version]
    files: dict[str, tuple[int, int]]
    gone_files: dict[str, int]

    def actor(self, task: str | None) -> str:
        """The task that the line is of."""
        raise NotImplementedError

    def decide(
        self, words: list[str], told: list[str], task: str, before: int | None = None,
        after: int | None = None,
    ) -> Decision:  # fmt: skip
        """Keeps an entry that is told."""
        raise NotImplementedError

    def refuse(
        self, words: list[str], told: list[str], task: str | None = None, before: int | None = None
    ) -> Decision:
        """Keeps a refusal."""
        raise NotImplementedError

    def on_open(self, words: list[str], told: list[str]) -> None:
        """A file is opened."""
        label = self.labels.get(words[1])
        credential = label.credential if label else None
        if label and told[0] == "ok":
            self.files[words[4]] = (label.credential, self.line)
            self.decide(words, told, self.actor(None), credential)
        else:
            self.refuse(words, told, None, credential)

    def on_close(self, words: list[str], told: list[str]) -> None:
        """A file is closed."""
        if told[0] == "ok":
            del self.files[words[1]]
            self.gone_files[words[1]] = self.line
        else:
            self.refuse(words, told)

    def on_stat(self, words: list[str], told: list[str]) -> None:
        """A question about a file."""
        label = self.labels.get(words[1])
        credential = label.credential if label and label.slot is None else None
        if told[0] != "ok":
            self.refuse(words, told, None, credential)
        elif self.line == self.whole:
            self.decide(words, told, self.actor(None), credential)

    def on_chown(self, words: list[str], told: list[str]) -> None:
        """A call that changes a file."""
        self.on_stat(words, told)
        if told[0] == "ok":
            credential = self.labels[words[1]].credential
            self.infos[words[2]] = Version(self.infos[words[2]], words, credential)

    on_chmod = on_setattr = on_clearattr = on_chown
