"""Plain, slow readers of models, of sets of files and of scripts, written from docs/ alone. The program is compared with them."""
