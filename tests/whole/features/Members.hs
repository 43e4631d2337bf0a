{-# LANGUAGE Arrows #-}
-- | Members that come and go.
module Members where

import Yampa.Whole

data Foe = Foe { at_, strength :: Int } deriving (Eq)
foe :: Foe -> SF Int Foe
foe f = proc x -> do
  s <- integral -< x
  t <- time -< ()
  returnA -< f { at_ = at_ f + t, strength = strength f - s }
members :: SF (Int, Event Int, Event Int) ([Foe], Int)
members = proc (x, e, g) -> do
  rec let news = event [] (\v -> [Foe v x, Foe (-v) 2]) e
          keep = [if event False (== k) g then -1 else k | k <- [0 .. 5]]
      fs <- rpSwitchB [foe (Foe 0 5)] -< (x, fmap (\(ks, ds) sfs -> at ks sfs ++ map foe ds) (if isEvent e || isEvent g then Event (keep, news) else NoEvent))
      n <- iPre 0 -< length fs
  returnA -< (fs, n)
