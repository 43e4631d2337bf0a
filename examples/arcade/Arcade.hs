{-# LANGUAGE Arrows #-}
-- | An arcade game: a ship on the ground, 13 columns wide, shoots at what comes down. The input is how the ship moves, whether it fires, and
-- an event that begins a new game. A shot flies two rows a second from row 1 on; an enemy comes every three seconds in row 9, and comes down
-- a row every two. A shot that meets an enemy is gone with it, which is a point; an enemy that lands costs one of three lives, and without
-- lives all stands still. Of each kind four are there at most. The output is the world.
module Arcade where

import Yampa.Whole

data Keys = Keys { move :: Int, fire :: Bool, again :: Event () }
data Spot = Spot { column, row :: Int }
data World = World { ship :: Int, shots, enemies :: [Spot], score, lives :: Int }

four :: [Int]
four = [0 .. 3]

-- | What was there; where there is none it is nowhere.
shot, enemy :: World -> Int -> Spot
shot w k = nth (shots w) k (Spot (-1) 10)
enemy w k = nth (enemies w) k (Spot (-2) 10)

meet :: World -> Int -> Int -> Bool
meet w j k = column (shot w j) == column (enemy w k) && row (shot w j) >= row (enemy w k)

spent, hit, landed, gone :: World -> Int -> Bool
spent w j = row (shot w j) > 9 || any (meet w j) four
hit w k = any (\j -> meet w j k) four
landed w k = row (enemy w k) < 1 && not (hit w k)
gone w k = k >= length (enemies w) || hit w k || landed w k

-- | The numbers of those that go on.
thoseBut :: (Int -> Bool) -> [Int]
thoseBut leaves = [if leaves k then -1 else k | k <- four]

count :: (Int -> Bool) -> Int
count f = length (filter f four)

flies, falls :: Int -> SF a Spot
flies c = time >>> arr (\t -> Spot c (1 + 2 * t))
falls c = repeatedly 2 () >>> accumHoldBy (\r _ -> r - 1) 9 >>> arr (Spot c)

-- | Those that run, of which some go on at each sample, and new ones come.
allOf :: (Int -> SF () Spot) -> SF ([Int], [Int]) [Spot]
allOf member = proc (stay, new) ->
  rpSwitchB [constant (Spot 0 0)] -< ((), fmap (\(ks, cs) members -> at ks members ++ map member cs) (Event (stay, new)))

nextColumn :: Int -> () -> Int
nextColumn c _ = if c + 5 < 13 then c + 5 else c - 8

playing :: SF Keys World
playing = proc keys -> do
  fired <- edge -< fire keys
  comes <- repeatedly 3 () >>> accumBy nextColumn 1 -< ()
  rec let to = max 0 (min 12 (ship was + move keys))
      flying <- allOf flies -< (thoseBut (spent was), event [] (const [to]) fired)
      falling <- allOf falls -< (thoseBut (gone was), event [] (: []) comes)
      was <- iPre (World 6 [] [] 0 3) -< world
      let world = World { ship = to, shots = flying, enemies = falling
                        , score = score was + count (hit was), lives = lives was - count (landed was) }
  returnA -< world

game :: SF Keys World
game = switch (playing >>> arr (\w -> (w, gate (Event w) (lives w < 1)))) constant

arcade :: SF Keys World
arcade = proc keys -> rSwitch game -< (keys, again keys `tag` game)
