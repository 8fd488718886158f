(define (problem already-lit)
  (:domain lamp)
  (:init (lit))
  (:goal (lit)))
