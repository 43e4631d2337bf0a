-- | Yampa's names on whole numbers: what the files of this workbench import, so that GHC compiles them too. A step of time is a whole
-- number, at least 1; each signal function's first sample comes with step 0. Beyond Yampa's names there are 'nth', 'at', and the types of
-- what should hold.
module Yampa.Whole
  ( SF, Time, DTime, Event(..), returnA, arr, (>>>), (<<<), (>>^), (^>>), (***), (&&&), first, second, identity, constant, loopPre, iPre
  , delay, hold, dHold, trackAndHold, accum, accumHold, accumBy, accumHoldBy, never, now, after, repeatedly, edge, iEdge, edgeTag, notYet
  , once, time, localTime, integral, (-->), (>--), switch, dSwitch, rSwitch, drSwitch, kSwitch, parB, pSwitch, pSwitchB, rpSwitchB, at, nth
  , event, isEvent, isNoEvent, maybeToEvent, tag, tagWith, attach, gate, lMerge, rMerge, mergeBy, joinE, splitE, filterE, mapFilterE
  , Assume, Guarantee, Invariant, Cover, runSF
  ) where

import Control.Arrow
import qualified Control.Category as C
import Data.List (mapAccumL)

type Time = Int
type DTime = Int

newtype SF a b = SF { stepSF :: DTime -> a -> (b, SF a b) }

-- | What should hold: of the input, of input and output, and of both where it is proved by induction; and what should be true of both at
-- some sample.
type Assume a = SF a Bool
type Guarantee a b = SF (a, b) Bool
type Invariant a b = SF (a, b) Bool
type Cover a b = SF (a, b) Bool

data Event a = NoEvent | Event a deriving (Eq, Ord, Show)

infixl 8 `tag`, `attach`, `gate`
infixl 6 `lMerge`, `rMerge`
infixr 0 -->, >--

instance Functor Event where
  fmap _ NoEvent = NoEvent
  fmap f (Event a) = Event (f a)

instance C.Category SF where
  id = arr id
  SF g . SF f = SF $ \dt a -> let (b, f') = f dt a
                                  (c, g') = g dt b
                              in (c, g' C.. f')

instance Arrow SF where
  arr f = SF $ \_ a -> (f a, arr f)
  first (SF f) = SF $ \dt ~(a, c) -> let (b, f') = f dt a in ((b, c), first f')

-- | Only what is chosen runs.
instance ArrowChoice SF where
  left (SF f) = SF $ \dt e -> case e of
    Left a -> let (b, f') = f dt a in (Left b, left f')
    Right c -> (Right c, left (SF f))

instance ArrowLoop SF where
  loop (SF f) = SF $ \dt a -> let ((b, d), f') = f dt (a, d) in (b, loop f')

identity :: SF a a
identity = arr id

constant :: b -> SF a b
constant = arr . const

loopPre :: c -> SF (a, c) (b, c) -> SF a b
loopPre c (SF f) = SF $ \dt a -> let ((b, c'), f') = f dt (a, c) in (b, loopPre c' f')

iPre :: a -> SF a a
iPre c = SF $ \_ a -> (c, iPre a)

-- | A state that sees the step and the sample.
state :: s -> (DTime -> a -> s -> (b, s)) -> SF a b
state s f = SF $ \dt a -> let (b, s') = f dt a s in (b, state s' f)

delay :: Time -> a -> SF a a
delay q c = state (0, [], c) $ \dt a (t, waiting, last_) ->
  let t' = t + dt
      (old, rest) = span (\(s, _) -> t' - s >= q) (waiting ++ [(t', a)])
      last' = if null old then last_ else snd (last old)
  in (last', (t', rest, last'))

hold :: a -> SF (Event a) a
hold c = state c $ \_ e s -> let v = event s id e in (v, v)

dHold :: a -> SF (Event a) a
dHold c = hold c >>> iPre c

trackAndHold :: a -> SF (Maybe a) a
trackAndHold c = arr maybeToEvent >>> hold c

accum :: a -> SF (Event (a -> a)) (Event a)
accum = accumBy (flip ($))

accumHold :: a -> SF (Event (a -> a)) a
accumHold = accumHoldBy (flip ($))

accumBy :: (b -> a -> b) -> b -> SF (Event a) (Event b)
accumBy f z = state z $ \_ e s -> case e of
  NoEvent -> (NoEvent, s)
  Event a -> let s' = f s a in s' `seq` (Event s', s')

accumHoldBy :: (b -> a -> b) -> b -> SF (Event a) b
accumHoldBy f z = accumBy f z >>> hold z

never :: SF a (Event b)
never = constant NoEvent

now :: b -> SF a (Event b)
now = after 0

after :: Time -> b -> SF a (Event b)
after q c = state (Just 0) $ \dt _ s -> case s of
  Nothing -> (NoEvent, Nothing)
  Just t | t + dt >= q -> (Event c, Nothing)
         | otherwise -> (NoEvent, Just (t + dt))

repeatedly :: Time -> b -> SF a (Event b)
repeatedly q c = state 0 $ \dt _ t ->
  let t' = t + dt in if t' >= q then (Event c, t' `mod` q) else (NoEvent, t')

edge :: SF Bool (Event ())
edge = iEdge True

iEdge :: Bool -> SF Bool (Event ())
iEdge b = state b $ \_ a s -> (if a && not s then Event () else NoEvent, a)

edgeTag :: a -> SF Bool (Event a)
edgeTag c = edge >>^ tagWith c

-- | Without an event at the first sample.
notYet :: SF (Event a) (Event a)
notYet = NoEvent --> identity

-- | The first event alone.
once :: SF (Event a) (Event a)
once = state False $ \_ e done -> (if done then NoEvent else e, done || isEvent e)

time, localTime :: SF a Time
time = state 0 $ \dt _ t -> let t' = t + dt in t' `seq` (t', t')
localTime = time

integral :: SF Int Int
integral = state (0, 0) $ \dt a (s, before) -> let s' = s + dt * before in (s', (s', a))

(-->) :: b -> SF a b -> SF a b
c --> SF f = SF $ \dt a -> let (_, f') = f dt a in (c, f')

(>--) :: a -> SF a b -> SF a b
c >-- SF f = SF $ \dt _ -> f dt c

switch, dSwitch :: SF a (b, Event c) -> (c -> SF a b) -> SF a b
switch (SF f) t = SF $ \dt a -> case f dt a of
  ((b, NoEvent), f') -> (b, switch f' t)
  ((_, Event c), _) -> stepSF (t c) 0 a
dSwitch (SF f) t = SF $ \dt a ->
  let ((b, e), f') = f dt a
  in (b, case e of { NoEvent -> dSwitch f' t; Event c -> snd (stepSF (t c) 0 a) })

rSwitch, drSwitch :: SF a b -> SF (a, Event (SF a b)) b
rSwitch (SF f) = SF $ \dt (a, e) -> let (b, f') = case e of { NoEvent -> f dt a; Event g -> stepSF g 0 a } in (b, rSwitch f')
drSwitch (SF f) = SF $ \dt (a, e) ->
  let (b, f') = f dt a in (b, drSwitch (case e of { NoEvent -> f'; Event g -> snd (stepSF g 0 a) }))

-- | A network as it was before a sample, whose first sample comes with that one's step.
frozen :: DTime -> SF a b -> SF a b
frozen dt (SF f) = SF $ \_ a -> f dt a

kSwitch :: SF a b -> SF (a, b) (Event c) -> (SF a b -> c -> SF a b) -> SF a b
kSwitch f e t = SF $ \dt a ->
  let (b, f') = stepSF f dt a
      (c, e') = stepSF e dt (a, b)
  in case c of
       NoEvent -> (b, kSwitch f' e' t)
       Event v -> stepSF (t (frozen dt f) v) 0 a

parB :: [SF a b] -> SF a [b]
parB fs = SF $ \dt a -> let rs = map (\f -> stepSF f dt a) fs in (map fst rs, parB (map snd rs))

-- | The route says what each member gets of the sample.
pSwitch :: (a -> [SF b c] -> [(b, SF b c)]) -> [SF b c] -> SF (a, [c]) (Event d) -> ([SF b c] -> d -> SF a [c]) -> SF a [c]
pSwitch r fs e t = SF $ \dt a ->
  let rs = map (\(b, f) -> stepSF f dt b) (r a fs)
      (v, e') = stepSF e dt (a, map fst rs)
  in case v of
       NoEvent -> (map fst rs, pSwitch r (map snd rs) e' t)
       Event d -> stepSF (t (map (frozen dt) fs) d) 0 a

pSwitchB :: [SF a b] -> SF (a, [b]) (Event c) -> ([SF a b] -> c -> SF a [b]) -> SF a [b]
pSwitchB = pSwitch (\a -> map ((,) a))

rpSwitchB :: [SF a b] -> SF (a, Event ([SF a b] -> [SF a b])) [b]
rpSwitchB fs = SF $ \dt (a, e) ->
  let rs = case e of
        NoEvent -> map (\f -> stepSF f dt a) fs
        Event g -> map (\f -> stepSF f 0 a) (take 64 (g (map (frozen dt) fs)))
  in (map fst rs, rpSwitchB (map snd rs))

-- | The members with these numbers, from 0; a number outside names none.
at :: [Int] -> [a] -> [a]
at ks xs = [xs !! k | k <- ks, k >= 0, k < length xs]

nth :: [a] -> Int -> a -> a
nth xs i d = if i >= 0 && i < length xs then xs !! i else d

event :: a -> (b -> a) -> Event b -> a
event d _ NoEvent = d
event _ f (Event b) = f b

isEvent :: Event a -> Bool
isEvent = event False (const True)

isNoEvent :: Event a -> Bool
isNoEvent = not . isEvent

maybeToEvent :: Maybe a -> Event a
maybeToEvent = maybe NoEvent Event

tagWith :: b -> Event a -> Event b
tagWith = (<$)

tag :: Event a -> b -> Event b
tag e b = b <$ e

attach :: Event a -> b -> Event (a, b)
attach e b = fmap (\a -> (a, b)) e

gate :: Event a -> Bool -> Event a
gate e c = if c then e else NoEvent

lMerge, rMerge :: Event a -> Event a -> Event a
lMerge NoEvent e = e
lMerge e _ = e
rMerge = flip lMerge

mergeBy :: (a -> a -> a) -> Event a -> Event a -> Event a
mergeBy f (Event a) (Event b) = Event (f a b)
mergeBy _ a b = lMerge a b

filterE :: (a -> Bool) -> Event a -> Event a
filterE p (Event a) | p a = Event a
filterE _ _ = NoEvent

mapFilterE :: (a -> Maybe b) -> Event a -> Event b
mapFilterE f e = event NoEvent (maybeToEvent . f) e

joinE :: Event a -> Event b -> Event (a, b)
joinE (Event a) (Event b) = Event (a, b)
joinE _ _ = NoEvent

splitE :: Event (a, b) -> (Event a, Event b)
splitE e = (fmap fst e, fmap snd e)

-- | Samples with their steps, of which the first is 0.
runSF :: SF a b -> [(DTime, a)] -> [b]
runSF f xs = snd (mapAccumL (\g (dt, a) -> let (b, g') = stepSF g dt a in (g', b)) f xs)
