import javax.cache.processor.EntryProcessor;
import javax.cache.processor.MutableEntry;

/**
 * A moving average in fixed point: the value is 1000 times the average, and a new sample, the first argument, weighs
 * one part in the second argument, which must not be 0. Returns the average, rounded toward zero.
 */
public class MovingAverage implements EntryProcessor<Long, Long, Long> {
    public Long process(MutableEntry<Long, Long> entry, Object... arguments) {
        long sample = (Long) arguments[0] * 1000;
        long parts = (Long) arguments[1];
        long average = sample;
        if (entry.exists()) {
            average = entry.getValue();
            average += (sample - average) / parts;
        }
        entry.setValue(average);
        return average / 1000;
    }
}
