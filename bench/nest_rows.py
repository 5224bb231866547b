#!/usr/bin/env python3
"""Prints rows of crates/parse_tests/stdin: each construct that counts for the nest, at the greatest nest that is read and one more.

A row has what is repeated before, what stands in the middle, what is repeated behind, how much the nest is without a repetition,
and how much each one adds. `docs/GRAMMAR.md` says what counts. Where each adds more than one, blocks around the text make up what
is left, one for each.
"""
MAX_NEST = 256

# what stands before all, what is repeated before, the middle, what is repeated behind, what stands behind all, the nest without and
# by each repetition, and whether Script and Module have it
ROWS = [
    ("", "(", "a", ")", "", 2, 1, "yy"),
    ("", "[", "", "]", "", 1, 1, "yy"),
    ("", "[", "a", "]", "", 2, 1, "yy"),
    ("", "({a:", "b", "})", "", 2, 2, "yy"),
    ("", "({...", "a", "})", "", 2, 2, "yy"),
    ("", "({[", "a", "]:b})", "", 2, 2, "yy"),
    ("", "({m(){", "", "}})", "", 0, 3, "yy"),
    ("", "!", "a", "", "", 2, 1, "yy"),
    ("", "~", "a", "", "", 2, 1, "yy"),
    ("", "- ", "a", "", "", 2, 1, "yy"),
    ("", "+ ", "a", "", "", 2, 1, "yy"),
    ("", "typeof ", "a", "", "", 2, 1, "yy"),
    ("", "void ", "a", "", "", 2, 1, "yy"),
    ("", "delete ", "a.b", "", "", 2, 1, "yy"),
    ("", "new ", "a", "", "", 2, 1, "yy"),
    ("", "await ", "a", "", "", 2, 1, "ny"),
    ("async function f(){", "await ", "a", "", "}", 3, 1, "yy"),
    ("function*f(){", "yield ", "a", "", "}", 3, 1, "yy"),
    ("", "{", "", "}", "", 0, 1, "yy"),
    ("", "if(a)", ";", "", "", 1, 1, "yy"),
    ("", "if(a);else ", ";", "", "", 1, 1, "yy"),
    ("", "while(a)", ";", "", "", 1, 1, "yy"),
    ("", "for(;;)", ";", "", "", 1, 1, "yy"),
    ("", "for(a in b)", ";", "", "", 1, 1, "yy"),
    ("", "for(a of b)", ";", "", "", 1, 1, "yy"),
    ("", "do ", ";", "while(a)", "", 1, 1, "yy"),
    ("", "with(a)", ";", "", "", 1, 1, "yy"),
    ("", "a:", ";", "", "", 1, 1, "yy"),
    ("", "switch(a){case b:", "", "}", "", 1, 1, "yy"),
    ("", "switch(a){default:", "", "}", "", 1, 1, "yy"),
    ("", "try{", "", "}catch{}", "", 0, 1, "yy"),
    ("", "try{}finally{", "", "}", "", 0, 1, "yy"),
    ("", "function f(){", "", "}", "", 0, 1, "yy"),
    ("", "(function(){", "", "})", "", 0, 3, "yy"),
    ("(", "function(a=", "b", "){}", ")", 3, 1, "yy"),
    ("", "class A{m(){", "", "}}", "", 0, 1, "yy"),
    ("", "class A{static{", "", "}}", "", 0, 1, "yy"),
    ("", "(class extends ", "a", "{})", "", 2, 2, "yy"),
    ("", "(class{a=", "b", "})", "", 2, 2, "yy"),
    ("", "(class{[", "a", "]=b})", "", 2, 2, "yy"),
    ("", "(a)=>", "a", "", "", 2, 1, "yy"),
    ("", "a=>", "a", "", "", 2, 1, "yy"),
    ("", "async a=>", "a", "", "", 2, 1, "yy"),
    ("", "()=>{", "", "}", "", 0, 2, "yy"),
    ("", "(a=", "b", ")=>c", "", 2, 1, "yy"),
    ("", "a=", "b", "", "", 2, 1, "yy"),
    ("", "a+=", "b", "", "", 2, 1, "yy"),
    ("", "a?b:", "c", "", "", 2, 1, "yy"),
    ("", "a?", "b", ":c", "", 2, 1, "yy"),
    ("", "`${", "a", "}`", "", 2, 1, "yy"),
    ("", "a`${", "a", "}`", "", 2, 1, "yy"),
    ("", "f(", "a", ")", "", 2, 1, "yy"),
    ("", "f(...", "a", ")", "", 2, 1, "yy"),
    ("", "f?.(", "a", ")", "", 2, 1, "yy"),
    ("", "async(", "a", ")", "", 2, 1, "yy"),
    ("", "import(", "a", ")", "", 2, 1, "yy"),
    ("", "a[", "b", "]", "", 2, 1, "yy"),
    ("", "a?.[", "b", "]", "", 2, 1, "yy"),
    ("", "[...", "a", "]", "", 2, 1, "yy"),
    ("", "[a=", "b", "]", "", 2, 2, "yy"),
    ("let ", "[", "a", "]", "=b", 1, 1, "yy"),
    ("let ", "{a:", "b", "}", "=c", 1, 1, "yy"),
    ("var ", "[", "a", "]", "=b", 1, 1, "yy"),
    ("", "[", "a", "]", "=b", 2, 1, "yy"),
    ("(", "{a:", "b", "}", "=c)", 3, 1, "yy"),
    ("for(let ", "[", "a", "]", " of b);", 1, 1, "yy"),
    ("try{}catch(", "[", "a", "]", "){}", 1, 1, "yy"),
    ("export default ", "(", "a", ")", "", 1, 1, "ny"),
    ("export let a=", "(", "a", ")", "", 1, 1, "ny"),
    ("export class A{m(){", "{", "", "}", "}}", 0, 1, "ny"),
]


def text_of(row, nest):
    """A text of a row with exactly this nest."""
    before, opening, middle, closing, behind, without, each, _ = row
    count, blocks = divmod(nest - without, each)
    text = before + opening * count + middle + closing * count + behind
    return "{" * blocks + text + "}" * blocks


def main():
    print("# the nest: each construct that counts, at the most that is read and one more, by bench/nest_rows.py")
    for row in ROWS:
        for nest, wanted in ((MAX_NEST, row[-1]), (MAX_NEST + 1, "nn")):
            print(f"{wanted} {text_of(row, nest)}")


main()
