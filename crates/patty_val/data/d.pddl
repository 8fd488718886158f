(define (domain d) (:functions (x)) (:action inc :precondition (<= (x) 1) :effect (increase (x) 1)))
