; words: 768 8192 65536
; The input ends within an expression.
(define (f x)
  (+ x 1)
(f 1)
