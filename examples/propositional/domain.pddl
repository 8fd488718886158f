(define (domain lamp)
  (:predicates (dark) (lit))
  (:action switch-on :precondition (dark) :effect (lit)))
