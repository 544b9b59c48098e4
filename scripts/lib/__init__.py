"""The package that the scripts share. Packages named `lib` beside other commands extend their path to it."""
