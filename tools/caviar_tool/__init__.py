"""The booking book for people: `rules` holds the tables of docs/RULES.md, `lines` hexadecimal, `typed` the words that
a person types, `explain` the sentences, `library` the proved functions, `main` the commands."""
