"""table: prints the list of deviations as the table of README.md, with which test_list compares that."""
from deviations import LIST

HEAD = ["| Deviation | The kernel | The model | The sentence that decides | Which does so |", "|---|---|---|---|---|"]


def lines():
    """Returns the lines of the table."""
    return HEAD + [f"| {row.name} | {row.kernel} | {row.model} | {row.section}: \"{row.sentence}\" | {row.right.value} |" for row in LIST]


if __name__ == "__main__":
    print("\n".join(lines()))
