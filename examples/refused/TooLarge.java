import javax.cache.processor.EntryProcessor;
import javax.cache.processor.MutableEntry;

/** The constants that javac writes of these strings make the class file longer than 65,536 bytes. */
public class TooLarge implements EntryProcessor<Long, Long, Object> {
    static final String TEN = "0123456789";
    static final String HUNDRED = TEN + TEN + TEN + TEN + TEN + TEN + TEN + TEN + TEN + TEN;
    static final String THOUSAND =
            HUNDRED + HUNDRED + HUNDRED + HUNDRED + HUNDRED + HUNDRED + HUNDRED + HUNDRED + HUNDRED + HUNDRED;
    static final String TEN_THOUSAND = THOUSAND + THOUSAND + THOUSAND + THOUSAND + THOUSAND + THOUSAND + THOUSAND
            + THOUSAND + THOUSAND + THOUSAND;
    static final String SIXTY_THOUSAND =
            TEN_THOUSAND + TEN_THOUSAND + TEN_THOUSAND + TEN_THOUSAND + TEN_THOUSAND + TEN_THOUSAND;

    public Object process(MutableEntry<Long, Long> entry, Object... arguments) {
        return 1L;
    }
}
