; words: 768 8192 65536
; Strings are written with quotes as values, and without by display.
"plain"
""
"seven77" "eight888" "nine99999"
"a \"quoted\" word, a \\ and
two lines\ttab"
(display "a \"quoted\" word\n")
(display "") (newline)
(display (list "x" 'y "z"))
(list "x" 'y "z")
(cdr (list "ä" "ö ü"))
(eq? "same" "same")
(let ((s "same")) (eq? s s))
"a string longer than the words that the reader starts with, so that its text has to grow twice or more on the way ....."
"; no comment" ; a comment "no string"
"(no list"
'symbol-with-a-name-that-is-longer-than-two-words
(eq? 'symbol-with-a-name-that-is-longer-than-two-words 'symbol-with-a-name-that-is-longer-than-two-wordt)
