"""The rules of the parts, of texts and of cases, stated anew: a module each, and each rule once. Nothing of the crates is
used. Scripts beside this folder print rows and other things by them."""
