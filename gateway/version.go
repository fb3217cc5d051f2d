package main

// version is the version of all programs: the text of the file VERSION at the top of the repository.
// tests/layout/version compares them.
const version = "1.0+unreleased"
