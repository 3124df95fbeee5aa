"""Words that name no command: status 2, and nothing on standard output."""

NO_COMMANDS = (
    "", "Mean", "forms", "mea", "sim --fast", "sim --record --record", "sim mean", "--record", "-h", "--help", "--form", "mean mean", "mean form", "mean --ranked", "replay ranked",
    "replay --ranked --ranked", "run 9", "run --turns", "run --turns=", "run --turns N", "run --turns -1", "run --turns +1", "run --turns 0x9", "run --turns 9 9",
    "run --turns= 9", "run --turns=9 9", "run --turns 18446744073709551616", "run --turns 000000000000000000009", "run --turns=99999999999999999999", "--turns 9", "mean --turns 9",
    "gen", "soak", "gen -1", "gen +1", "gen 18446744073709551616", "gen 1 0", "gen 1 33", "gen 1 -1", "gen 1 +1", "gen 1 8 8", "gen 1 000000000000000000008", "gen x", "gen 1 x",
    "soak -1", "soak 18446744073709551616", "soak 1 0", "soak 1 33", "soak 1 8 8", "gen --seed 1", "soak 1 --turns 1",
    "upgrade x", "upgrade 2", "upgrade --record", "upgrade --ranked", "upgrade --turns 1", "upgrade upgrade", "upgrade form", "form upgrade", "--upgrade", "Upgrade", "upgrad",
    "upgrades", "form --record", "form form", "rta x", "rta --record", "rta --ranked", "rta --turns 1", "rta 2", "rta rta", "rta mean", "plan rta", "--rta", "Rta", "RTA", "rt",
    "rtas", "need", "need 9x", "need abcdefghijklmnopqrstuvwxy", "need a b", "need a a", "need a-b", "need a.b", "need -a", "need --record", "need --turns 1", "need -1", "need 9",
    "need caf\u00e9", "need=a", "Need a", "need a need", "nee a", "needs a", "--need a", "a need", "mean a", "rta a",
    "rank x", "rank 1", "rank --record", "rank --ranked", "rank --turns 1", "rank rank", "rank form", "form rank", "plan rank", "replay rank", "--rank", "Rank", "RANK", "ran",
    "ranks", "ranked", "rank a", "rank=1",
    "cpus x", "cpus 2", "cpus --record x", "cpus --record --record", "cpus --ranked", "cpus --turns 1", "cpus cpus", "cpus sim", "sim cpus", "cpus mean", "--record cpus", "--cpus",
    "Cpus", "CPUS", "cpu", "cpu --record", "cpuss", "cpus --recor", "cpus -record", "cpus record", "cpus=2", "cpus --record=x",
)

# Words that are empty, or have blanks in them.
WITH_BLANKS = (
    [""], [" "], ["", "mean"], ["mean", ""], ["mean "], ["form", ""], ["", "form"], ["upgrade", ""], ["", "upgrade"], ["upgrade", " "], ["upgrade "], [" upgrade"], ["upgrade x"], ["sim --record"],
    ["run", "--turns", ""], ["run", "--turns", " 9"], ["run", "--turns", "9 "], ["rta", ""], ["", "rta"], ["rta", " "], ["rta "], [" rta"], ["rta x"],
    ["need", ""], ["need", " "], ["need", " a"], ["need", "a "], ["need", "a b"], ["need", "a\n"], ["need", "a", ""], ["need", "", "a"], ["", "need", "a"], ["need a"],
    ["rank", ""], ["", "rank"], ["rank", " "], ["rank "], [" rank"], ["rank x"], ["rank\n"],
    ["cpus", ""], ["", "cpus"], ["cpus", " "], ["cpus "], [" cpus"], ["cpus --record"], ["cpus", "--record", ""], ["cpus", "--record "], ["cpus\n"],
)


def cases():
    for words in [*map(str.split, NO_COMMANDS), *WITH_BLANKS]:
        yield f"{words}", words, b"dbp 1\n", 2, b""
