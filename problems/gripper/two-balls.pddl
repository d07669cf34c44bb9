; Two balls, one in each gripper, go to the other room.
(define (problem two-balls)
  (:domain gripper)
  (:objects hall kitchen red blue left right)
  (:init (room hall) (room kitchen) (ball red) (ball blue) (gripper left) (gripper right)
    (robot-in hall) (ball-in red hall) (ball-in blue hall) (free left) (free right))
  (:goal (and (ball-in red kitchen) (ball-in blue kitchen))))
