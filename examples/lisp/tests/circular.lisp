; words: 1280 8192 65536
; Rings that nothing reaches any more are taken back, however they hang together.
(define (ring)
  (let ((first (list 1 2 3)))
    (set-cdr! (cdr (cdr first)) first)
    (set-car! first first)
    first))
(define (make-many n) (if (= n 0) 'done (begin (ring) (make-many (- n 1)))))
(make-many 5000)
(define kept (ring))
(collect)
(make-many 5000)
(list (eq? (car kept) kept) (eq? (cdr (cdr (cdr kept))) kept) (car (cdr kept)))
; A closure that holds itself, and a pair that holds the closure.
(define (knot)
  (let ((cell (list 0)))
    (set-car! cell (lambda () cell))
    cell))
(define (knots n) (if (= n 0) 'done (begin (knot) (knots (- n 1)))))
(knots 5000)
(let ((cell (knot))) (eq? ((car cell)) cell))
(set! kept ())
(collect)
kept
