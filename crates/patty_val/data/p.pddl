(define (problem p) (:domain d) (:init (= (x) 0)) (:goal (>= (x) 2)))
