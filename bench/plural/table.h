ENTRY(one_form, 1), ENTRY(english, 2), ENTRY(french, 2), ENTRY(latvian, 3), ENTRY(irish, 3),
ENTRY(romanian, 3), ENTRY(lithuanian, 3), ENTRY(russian, 3), ENTRY(czech, 3), ENTRY(polish, 3),
ENTRY(slovenian, 4), ENTRY(arabic, 6), ENTRY(icelandic, 2), ENTRY(macedonian, 2), ENTRY(maltese, 4),
ENTRY(welsh, 4), ENTRY(gaelic, 4), ENTRY(irish_five, 5), ENTRY(hebrew, 4), ENTRY(french_millions, 3),
