; words: 4096 8192 65536
; Primes by the sieve of Eratosthenes, on a list of numbers.
(define (from a b) (if (> a b) () (cons a (from (+ a 1) b))))
(define (divides? d n) (= (remainder n d) 0))
(define (without d list)
  (cond ((null? list) ())
        ((divides? d (car list)) (without d (cdr list)))
        (else (cons (car list) (without d (cdr list))))))
(define (sieve list)
  (if (null? list)
      ()
      (cons (car list) (sieve (without (car list) (cdr list))))))
(sieve (from 2 60))
