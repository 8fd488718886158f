(define (problem p) (:domain d) (:init) (:goal (g)))
