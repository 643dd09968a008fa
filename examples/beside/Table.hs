{-# LANGUAGE BangPatterns #-}
-- Table.hs N [THREADS]: the load of table.go. ghc -O2 -threaded -rtsopts Table.hs -o table_hs
module Main (main) where

import Control.Concurrent (forkIO, newEmptyMVar, putMVar, setNumCapabilities, takeMVar)
import Control.Monad (forM)
import Data.Array.Base (unsafeRead, unsafeWrite)
import Data.Array.IO (IOArray, newArray)
import Data.Bits (shiftR, xor)
import Data.Word (Word64)
import System.Environment (getArgs)

data Entry = None | Entry {-# UNPACK #-} !Word64 {-# UNPACK #-} !Word64

keys, step :: Word64
keys = 64000
step = 0x9E3779B97F4A7C15

mixed :: Word64 -> Word64
mixed n0 = n2 `xor` (n2 `shiftR` 31)
  where
    n1 = (n0 `xor` (n0 `shiftR` 30)) * 0xBF58476D1CE4E5B9
    n2 = (n1 `xor` (n1 `shiftR` 27)) * 0x94D049BB133111EB

run :: IOArray Int Entry -> Int -> Int -> IO Int
run table lane operations = go operations (1 + mixed (fromIntegral lane * step + step)) 0
  where
    go :: Int -> Word64 -> Int -> IO Int
    go 0 _ !wrong = return wrong
    go n !state !wrong = do
      let state' = state + 2 * step
          key = mixed state' `mod` keys
          place = fromIntegral key
      if even (mixed (state + step))
        then unsafeWrite table place (Entry key key) >> go (n - 1) state' wrong
        else do
          entry <- unsafeRead table place
          case entry of
            Entry k _ | k /= key -> go (n - 1) state' (wrong + 1)
            _ -> go (n - 1) state' wrong

main :: IO ()
main = do
  args <- map read <$> getArgs
  let (operations, threads) = case args of
        [n] -> (n, 1)
        (n : t : _) -> (n, t)
        _ -> (0, 1)
  setNumCapabilities threads
  table <- newArray (0, fromIntegral keys - 1) None :: IO (IOArray Int Entry)
  ends <- forM [0 .. threads - 1] $ \lane -> do
    end <- newEmptyMVar
    let share = operations `div` threads + (if lane < operations `mod` threads then 1 else 0)
    _ <- forkIO (run table lane share >>= putMVar end)
    return end
  wrongs <- mapM takeMVar ends
  putStrLn ("operations " ++ show operations ++ "\nwrong " ++ show (sum wrongs))
