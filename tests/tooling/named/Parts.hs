-- | All kinds of types with names, of which C gets structs and enumerations.
module Parts where

import Yampa.Whole

data Light = Red | Green | Light deriving (Eq)
data Spot = Spot { x', int :: Int } deriving (Eq)
data Box = Box { only :: Light }
data None = None
data Shape = Round Int | Nowhere | Square { side :: Int, at' :: Spot } deriving (Eq)

data All = All
  { light :: Light, spots :: [Spot], perhaps :: Maybe Light, box :: Box, none :: None, shape :: Shape, both :: (Light, Int, Bool)
  , plain :: [Event Int], bell :: Event [Light], shapes :: [Shape] }

data Seen = Seen { same :: All, asWanted :: [Bool], before :: Maybe Shape }

parts :: SF All Seen
parts = proc a -> do
  last_ <- iPre Nothing -< Just (shape a)
  let (l, n, b) = both a
  returnA -< Seen
    { same = a
    , asWanted = [light a == Green, perhaps a == Just Light, only (box a) == Light, shape a == Square 3 (Spot 4 5), l == Red && n == 7 && b]
    , before = last_ }
