; words: 1280 8192
; Calls in tail position take no memory, however many there are.
(define (loop n) (if (= n 0) 'done (loop (- n 1))))
(loop 1000000)
(define (even n) (cond ((= n 0) #t) (else (odd (- n 1)))))
(define (odd n) (and (not (= n 0)) (or #f (even (- n 1)))))
(even 20000)
(define (count n limit)
  (let ((next (+ n 1)))
    (begin
      n
      (if (< next limit) (count next limit) next))))
(count 0 20000)
(define (sum n total) (if (= n 0) total (sum (- n 1) (+ total n))))
(sum 20000 0)
