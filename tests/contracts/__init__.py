"""Compares the contracts and the definitions of two trees: the script compare_contracts.

The maps here are of two changes, neither of which changed what a contract says. The first renamed
names and moved files: four maps lead from the tree before the commit that brought names.map to the
tree of that commit.

    new=$(git log --format=%h --diff-filter=A -- tests/contracts/names.map)
    cd tests/contracts
    ../compare_contracts $new~1 $new --map names.map --map uses.map --map rooms.map --map hand.map

The second made clauses that stood several times the fields of records, which are new.

    new=$(git log --format=%h --diff-filter=A -- :/crates/asm_explore/specs/code/AddedNodes.antt)
    ../compare_contracts $new~1 $new --map records.map
"""
