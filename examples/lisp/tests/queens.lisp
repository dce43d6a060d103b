; words: 2048 8192 65536
; All ways to place 6 queens, each row's column in a list, the last row first.
(define size 6)
(define (safe? column distance placed)
  (or (null? placed)
      (let ((other (car placed)))
        (and (not (= other column))
             (not (= other (+ column distance)))
             (not (= other (- column distance)))
             (safe? column (+ distance 1) (cdr placed))))))
(define found 0)
(define (place row placed)
  (if (> row size)
      (begin (set! found (+ found 1)) (display placed) (newline))
      (try row 1 placed)))
(define (try row column placed)
  (cond ((> column size) 'tried)
        (else
          (if (safe? column 1 placed)
              (place (+ row 1) (cons column placed)))
          (try row (+ column 1) placed))))
(place 1 ())
found
