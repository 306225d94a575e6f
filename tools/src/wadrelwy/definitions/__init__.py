"""The written definitions (`specs/*.antt`) and the contracts of the code (`src/*.rt`), as the tools read them."""
