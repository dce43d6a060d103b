; words: 1536 8192 65536
; Out of memory is an error like others: what was defined stays, and the next expression is evaluated.
(define kept '(still here))
(define (grow list) (grow (cons 1 list)))
(grow ())
kept
(define (deep n) (+ 1 (deep (+ n 1))))
(deep 0)
kept
(define (nest x) (nest (list x)))
(nest 'x)
(define (wrap f) (wrap (lambda () f)))
(wrap 0)
; A global that takes all there is: the next expression can still let go of it.
(define hoard ())
(define (fill) (set! hoard (cons 0 hoard)) (fill))
(fill)
(car hoard)
(set! hoard ())
(define (fact n) (if (= n 0) 1 (* n (fact (- n 1)))))
(fact 10)
; Again and again.
(fill)
(fill)
(fill)
(fill)
(set! hoard 'free)
hoard
(deep 0)
(grow ())
(list kept (fact 5))
