; One triangle among six people, and a longer circle.
(define (problem six)
  (:domain triangle)
  (:objects ann ben cem dee eva fay)
  (:init (knows ann ben) (knows ben cem) (knows cem ann)
    (knows cem dee) (knows dee eva) (knows eva fay) (knows fay cem))
  (:goal (met ben cem ann)))
