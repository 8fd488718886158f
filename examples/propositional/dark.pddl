(define (problem still-dark)
  (:domain lamp)
  (:init (dark))
  (:goal (lit)))
