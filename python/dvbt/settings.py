"""The settings of a transmission (docs/use/SETTINGS.md), written as the TOML that the program reads."""
import dataclasses
from typing import Any, Mapping, Optional, Sequence, Union


@dataclasses.dataclass(frozen=True)
class Settings:
    """The settings of a transmission. What the program rejects is rejected when it runs, by `Refused`.

    >>> print(Settings("8k", "64qam", "2/3", "1/32", cell_id=7).toml(), end="")
    mode = "8k"
    constellation = "64qam"
    rate_hp = "2/3"
    guard = "1/32"
    cell_id = 7
    """

    mode: str  # "2k" or "8k"
    constellation: str  # "qpsk", "16qam" or "64qam"
    rate_hp: str  # "1/2", "2/3", "3/4", "5/6" or "7/8"
    guard: str  # "1/32", "1/16", "1/8" or "1/4"
    hierarchy: Optional[str] = None  # "none", "1", "2" or "4"
    rate_lp: Optional[str] = None  # exactly with a hierarchy
    cell_id: Optional[int] = None  # 0 to 65535
    start: Optional[str] = None  # "zero", or "any" if the cells do not begin with the transmission
    workers: Optional[int] = None  # threads, 1 to 16
    max_symbols: Optional[int] = None  # 1 to 4294967295
    plan: Sequence[Mapping[str, Any]] = ()  # the parameters of later super-frames

    def toml(self) -> str:
        return written(dataclasses.asdict(self))


AnySettings = Union[Settings, Mapping[str, Any]]


def written(document: Mapping[str, Any]) -> str:
    """A document of numbers, texts and a plan as TOML. A value None is left out."""
    lines = [f"{key} = {value_of(value)}" for key, value in document.items() if value is not None and key != "plan"]
    for entry in document.get("plan") or ():
        lines += ["[[plan]]", *(f"{key} = {value_of(value)}" for key, value in entry.items())]
    return "\n".join(lines) + "\n"


def value_of(value: Any) -> str:
    if isinstance(value, str):
        return '"' + value.replace("\\", "\\\\").replace('"', '\\"') + '"'
    return str(value).lower()


def toml_of(settings: AnySettings) -> str:
    """The TOML of a dataclass or a dictionary of settings."""
    return settings.toml() if isinstance(settings, Settings) else written(settings)


def mode_of(settings: AnySettings) -> str:
    return settings.mode if isinstance(settings, Settings) else settings["mode"]


def with_mode(settings: Union[str, AnySettings]) -> AnySettings:
    """Settings of which the mode alone counts: the mode itself will do."""
    return Settings(settings, "qpsk", "1/2", "1/32") if isinstance(settings, str) else settings


def is_hierarchical(settings: AnySettings) -> bool:
    """Whether there are two streams, at the top or in the plan."""
    document = dataclasses.asdict(settings) if isinstance(settings, Settings) else settings
    return any((it.get("hierarchy") or "none") != "none" for it in (document, *(document.get("plan") or ())))
