#!/usr/bin/env python3
"""places.py COMMIT [--list POINT]: counts the places of docs/DESIGN-PASS.md's points in the sources of a commit, by crate; with --list prints the lines of one row.

Each row is a regular expression over the lines of crates/*/src/*.rt (of proofs/ for point 8). A row says where to look: what stands in a line is read by hand."""
import re
import subprocess
import sys

ROWS = [
    ("1a own enums", r"^\s*(pub(\(crate\))? )?enum ", "src"),
    ("1b a flag among fields", r"^\s+(pub(\(crate\))? )?\w+: bool,", "src"),
    ("1c a refusal's number in a field or as an answer", r"^\s+(pub )?(refusal|flaw): u64|(begin|add|remove|check|encode|row_refusal|fill_row|of_ask|of_count|of_row|of_energy|of_lengths|of_decoding|refusal|meterplan_\w+|number_of|last_number|edit|code|bit_count|penalty|energy)\(.*-> u64", "src"),
    ("1d a kind or a call as a number or a letter", r"\b(kind|letter|way): (u64|u8)", "src"),
    ("1e a number that stands for none", r"const NONE|0 (where|for) (there is |it has )?no|0 where none|count or more|0 where there|, or 0$|or 0\.|below 0 where", "src"),
    ("2 twins (whole words, read by hand)", r"fn (allows|bits|penalty_of|own_penalty|constant|fill_row|energy|is_plan|encode|decode|copy_bytes|copy_words|front|front_numbers|front_of|same|same_code|same_plan|same_numbers|differ|magnitude|wide|read_full|read_to|row_into|gap_squared|clear|clear_bits|fill_zero|show_row|show_row_in|put_byte|set_bit)\b", "src"),
    ("3 loops that count by hand", r"^\s*while ", "src"),
    ("4 by hand what a derive, From, Display or the library has", r"fn (magnitude|put_number|put_signed|put_entry|signed|digit|is_digit|longer|print_byte|differ|same|same_code|same_plan|same_numbers|front|front_numbers|front_of|copy_of|copy_bytes|copy_words|fill_zero|clear_bits|low_of|high_of|both|either|choose|within|small|room|wide|power|power_of_two|plus|times|before|counted|number_of|decoded_of|more|of_channels|of_unrepaired|none|no_image|refused|kind_of|asks|asked)\b", "src"),
    ("5a parameters that travel together: links", r"\b(us|vs|ws|tails|heads): &", "src"),
    ("5b parameters that travel together: a site of the reference", r"weights: &\[u16; 2500\]", "src"),
    ("5c facts in contracts that a type could hold", r"\b(Arrays|Ends|WithChoices|WithDepths|WithNeighbourLimit|WithPlace|Ready)\b.*(now|×)", "src"),
    ("6 arrays of a size, buffers with a length beside", r"&('\w+ )?(mut )?\[\w+; ?\w+\]", "src"),
    ("7 a switch on which step to run", r"match (kind|letter|problem)\b|if (kind|letter) [=!]=|\.kind [=!]=", "src"),
    ("8a answers to goals", r"^pub \S+ : goal\.", "proofs"),
    ("8b lemmas and definitions of proofs/", r"^\s*pub (?!mod)\S+ :(?! goal\.)", "proofs"),
]


def lines(commit, where):
    spec = {"src": "crates/*/src/*.rt", "proofs": "crates/*/proofs/*.antt"}[where]
    out = subprocess.run(["git", "grep", "-nI", "", commit, "--", spec], capture_output=True, text=True, check=True).stdout
    for line in out.splitlines():
        line = line[len(commit) + 1:]
        path, number, text = line.split(":", 2)
        yield path, number, text


def main():
    commit = sys.argv[1]
    only = sys.argv[sys.argv.index("--list") + 1] if "--list" in sys.argv else None
    texts = {where: list(lines(commit, where)) for where in ("src", "proofs")}
    for name, pattern, where in ROWS:
        found = [(p, n, t) for p, n, t in texts[where] if re.search(pattern, t) and not t.lstrip().startswith("ghost use")]
        if only:
            if name.split()[0] == only:
                for p, n, t in found:
                    print(f"{p}:{n}:{t}")
            continue
        crates = {}
        for p, _, _ in found:
            crates[p.split("/")[1]] = crates.get(p.split("/")[1], 0) + 1
        print(f"{len(found):5}  {name}: " + ", ".join(f"{c} {k}" for c, k in sorted(crates.items())))


main()
