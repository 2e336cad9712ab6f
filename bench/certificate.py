"""Makes an instance and a certificate of it that is accepted: `certificate.py SITES CUSTOMERS DEPTH INSTANCE CERTIFICATE`.

One site is cheap, and its fixed cost is paid in equal parts by the customers' duals, so that the bound
of the root is the cost of opening it alone. A further decision on another site lowers no bound for the
same duals. So each leaf of the full tree of that depth, which splits on the other sites, closes with them.
"""
import argparse
import random

words = argparse.ArgumentParser(description=__doc__, formatter_class=argparse.RawDescriptionHelpFormatter)
for number in ("sites", "customers", "depth"):
    words.add_argument(number, type=int)
words.add_argument("instance")
words.add_argument("certificate")
options = words.parse_args()
sites, customers, depth = options.sites, options.customers, options.depth
assert depth < sites
random.seed(1)
UNIT = 1_000_000
share = 7 * UNIT + 123_456
cheap = [random.randrange(UNIT, 1000 * UNIT) for _ in range(customers)]
duals = [cost + share for cost in cheap]


def amount(micro):
    return f"{micro // UNIT}.{micro % UNIT:06}"


with open(options.instance, "w") as file:
    file.write(f"{sites} {customers} 0\n")
    for site in range(1, sites + 1):
        if site == 1:
            row, fixed = cheap, share * customers
        else:
            row = [dual - 3 + random.randrange(1000 * UNIT) for dual in duals]
            fixed = 3 * customers + random.randrange(1000 * UNIT)
        file.write(f"{site} {amount(fixed)} {' '.join(map(amount, row))}\n")

leaf = "leaf 1 0\nv " + " ".join(map(str, duals)) + "\nu\n"
with open(options.certificate, "w") as file:
    file.write("dualoc-certificate 1\n")
    file.write(f"sites {sites} customers {customers}\n")
    file.write(f"claim optimal {amount(sum(duals))}\n")
    file.write("open 1\n")
    file.write("serve" + " 1" * customers + "\n")

    def tree(level):
        if level > depth:
            file.write(leaf)
            return
        for child in range(2):
            if child == 0:
                file.write(f"site {level + 1}\n")
            tree(level + 1)

    tree(1)
    file.write("end\n")
