; words: 1024 8192 1048576
; Each special form and primitive at least once.
5 -7 +3
#t
#f
()
'sym
'(1 (2 3) . 4)
''x
(quote (a b))
(if #t 1 2)
(if #f 1 2)
(if #f 1)
(if () 'yes 'no)            ; only #f is false
(if 0 'yes 'no)
(begin 1 2 3)
(define x 10)
x
(set! x (+ x 1))
x
(let ((x 1) (y x)) (list x y))
(let () 'empty)
(define (area w h) (* w h))
(area 6 7)
((lambda (a b) (- a b)) 10 3)
((lambda () 'none))
(cond ((= x 1) 'one) ((= x 11) 'eleven) (else 'other))
(cond ((= x 1) 'one) (else 'first 'last))
(cond (#f 1))
(cond (x))
(and)
(and 1 2 3)
(and 1 #f 3)
(or)
(or #f #f 3)
(or #f #f)
(and #f (undefined))
(or 1 (undefined))
(cons 1 2)
(cons 1 '(2 3))
(car '(1 2))
(cdr '(1 2))
(define p (list 1 2 3))
(set-car! p 'one)
(set-cdr! (cdr p) '(three))
p
(list (pair? p) (pair? ()) (null? ()) (null? p) (symbol? 'a) (symbol? "a") (number? 1) (number? 'a))
(list (eq? 'a 'a) (eq? 1 1) (eq? p p) (eq? (list 1) (list 1)) (eq? () ()) (eq? #t #f))
(list (+) (+ 1) (+ 1 2 3) (- 5) (- 9 2 3) (*) (* 2 3 4))
(list (quotient 17 5) (quotient -17 5) (remainder 17 5) (remainder -17 5))
(list (= 1 1) (< 1 2) (> 1 2) (<= 2 2) (>= 1 2) (not #f) (not 0))
(list -9223372036854775808 9223372036854775807)
(+ 9223372036854775806 1)
(remainder -9223372036854775808 -1)
(display '(1 "two" three)) (newline)
(display "no newline behind")
'next
(collect)
(list car cond2 if)
car
area
