"""The filter's words: its own, and those that go to hexd as they are. bin/hexd-gtp has looked at them by then: each is in
order, and stands once."""

from dataclasses import dataclass, field, replace

import settings

# Who says how much is searched chooses no strength.
AMOUNTS = {"playouts", "weight", "look", "solve"}
OWN = {"strength", "seconds", "swap", "resign", "ponder", "log"}
# Options of hexd's by their names as parameters.
PARAMETERS = {"nodes": "look"}


def given_options(given):
    """The options of a command line, with their values, by their names without hyphens."""
    options, left = {}, [word for word in given if word != "--"]
    while left:
        name, is_joined, value = left.pop(0).partition("=")
        options[name.removeprefix("--")] = value if is_joined else left.pop(0)
    return options


@dataclass(frozen=True)
class Words:
    """How the filter was started. `strength` is one of the table, or None: then hexd's own options say how it searches."""

    strength: str | None = None
    seconds: int | None = None
    swaps: bool = True
    # Below so many per cent, and if each move loses, it resigns; None: never.
    resign: int | None = None
    # Whether it thinks on the other player's time.
    ponders: bool = False
    # The file to which all lines are added.
    log: str | None = None
    # Those of hexd.
    options: dict = field(default_factory=dict)

    @classmethod
    def of(cls, given):
        """Reads the words of the command line."""
        options = given_options(given)
        own = {name: options.pop(name) for name in OWN & options.keys()}
        chosen = own.keys() & {"strength", "seconds"} or not AMOUNTS & options.keys()
        return cls(
            strength=own.get("strength", settings.TABLE["default"]) if chosen else None,
            seconds=int(own["seconds"]) if "seconds" in own else None,
            swaps=own.get("swap") != "off",
            resign=int(own["resign"]) if "resign" in own else None,
            ponders=own.get("ponder") == "on",
            log=own.get("log"),
            options=options,
        )

    def value(self, name):
        """What is said of an option of hexd's; None if nothing is."""
        return self.options.get(name)

    def having(self, name, value):
        """These words with another value of an option of hexd's."""
        return replace(self, options={**self.options, name: value})

    def without(self, name):
        """These words without an option of hexd's."""
        return replace(self, options={option: value for option, value in self.options.items() if option != name})

    def with_parameter(self, name, value):
        """These words with another value of a parameter. A strength chooses the nodes anew."""
        if name == "strength":
            return replace(self.without("look"), strength=value)
        if name == "seconds":
            return replace(self, seconds=int(value) or None)
        return self.having(PARAMETERS.get(name, name), value)

    def of_hexd(self, options):
        """hexd's words with these options, if a strength chooses them; its own options stand before the strength's."""
        return settings.words_of({**(options if self.strength else {}), **self.options})

    def of_analysis(self, options):
        """hexd's words for a search of its own, which writes no trace: these options stand before the filter's words."""
        return settings.words_of({**self.without("trace").options, **options})
