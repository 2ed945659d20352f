"""Where the things of the repository are that the tests use."""

from pathlib import Path

TOP = Path(__file__).resolve().parents[2]
RULES = sorted((TOP / "examples" / "rules").glob("*.vir"))
PROFILES = sorted((TOP / "examples" / "profiles").glob("*.soc"))
EXPECTED = TOP / "examples" / "expected"


def rule(name: str) -> str:
    return str(TOP / "examples" / "rules" / f"{name}.vir")


def profile(name: str) -> str:
    return str(TOP / "examples" / "profiles" / f"{name}.soc")
