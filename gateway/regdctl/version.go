package main

// version is the version of regdctl: the text of the file VERSION at the top of the repository. tests/layout/version
// compares them. The lines that regdctl knows are those of the same version of regd.
const version = "1.0+unreleased"
