import java.math.BigDecimal;
import java.math.RoundingMode;
import javax.cache.processor.EntryProcessor;
import javax.cache.processor.EntryProcessorException;
import javax.cache.processor.MutableEntry;

/** Stock, money, prices and points. */
public final class Inventory {
    private Inventory() { }

    public static class Reserve implements EntryProcessor<Long, Long, Long> {
        @Override
        public Long process(MutableEntry<Long, Long> entry, Object... arguments) {
            int quantity = (Integer) arguments[0];
            if (quantity <= 0) {
                throw new IllegalArgumentException("quantity must be positive");
            }
            long stock = entry.exists() ? entry.getValue() : 0;
            if (stock < quantity) {
                throw new EntryProcessorException("out of stock");
            }
            entry.setValue(stock - quantity);
            return stock - quantity;
        }
    }

    public static class TryReserve implements EntryProcessor<Long, Long, Long> {
        @Override
        public Long process(MutableEntry<Long, Long> entry, Object... arguments) {
            long quantity = (Long) arguments[0];
            long stock = entry.exists() ? entry.getValue() : 0;
            if (quantity <= 0 || stock < quantity) {
                return -1L;
            }
            entry.setValue(stock - quantity);
            return stock - quantity;
        }
    }

    public static class Restock implements EntryProcessor<Long, Long, Long> {
        private static final Long MOST = 10_000L;

        @Override
        public Long process(MutableEntry<Long, Long> entry, Object... deliveries) {
            Long stock = entry.exists() ? entry.getValue() : Long.valueOf(0);
            for (int i = 0; i < deliveries.length; i++) {
                stock += (Integer) deliveries[i];
                if (stock.compareTo(MOST) > 0) {
                    stock = MOST;
                    break;
                }
            }
            entry.setValue(stock);
            return stock;
        }
    }

    public static class Withdraw implements EntryProcessor<Long, Long, Boolean> {
        @Override
        public Boolean process(MutableEntry<Long, Long> entry, Object... arguments) {
            long cents = (Long) arguments[0];
            long overdraft = arguments.length > 1 ? (Long) arguments[1] : 0;
            long balance = entry.exists() ? entry.getValue() : 0;
            if (balance - cents < -overdraft) {
                return false;
            }
            entry.setValue(balance - cents);
            return true;
        }
    }

    public static class Interest implements EntryProcessor<Long, Long, Long> {
        @Override
        public Long process(MutableEntry<Long, Long> entry, Object... arguments) {
            BigDecimal balance = BigDecimal.valueOf(entry.getValue(), 2);
            BigDecimal rate = BigDecimal.valueOf((Long) arguments[0], 4);
            BigDecimal next = balance.multiply(BigDecimal.ONE.add(rate)).setScale(2, RoundingMode.HALF_EVEN);
            entry.setValue(next.unscaledValue().longValue());
            return next.unscaledValue().longValue();
        }
    }

    public static class CompoundInterest implements EntryProcessor<Long, Long, Long> {
        @Override
        public Long process(MutableEntry<Long, Long> entry, Object... arguments) {
            long cents = entry.getValue();
            int basisPoints = (Integer) arguments[0];
            int years = Math.min((Integer) arguments[1], 50);
            for (int year = 0; year < years; year++) {
                cents += (cents * basisPoints + 5_000) / 10_000;
            }
            entry.setValue(cents);
            return cents;
        }
    }

    public static class Discount implements EntryProcessor<Long, Long, Long> {
        @Override
        public Long process(MutableEntry<Long, Long> entry, Object... arguments) {
            long price = entry.getValue();
            double percent = ((Integer) arguments[0]) / 100.0;
            long reduced = Math.round(price * (1 - percent));
            entry.setValue(reduced);
            return reduced;
        }
    }

    public static class TieredPrice implements EntryProcessor<Long, Long, Long> {
        private static final int[] FROM = {1, 10, 50, 100, 500};
        private static final int[] PERCENT = {100, 95, 90, 85, 80};

        @Override
        public Long process(MutableEntry<Long, Long> entry, Object... arguments) {
            long unit = entry.getValue();
            int quantity = (Integer) arguments[0];
            int percent = 100;
            for (int i = 0; i < FROM.length; i++) {
                if (quantity >= FROM[i]) {
                    percent = PERCENT[i];
                }
            }
            return unit * quantity * percent / 100;
        }
    }

    public static class ChangeCoins implements EntryProcessor<Long, Long, Integer> {
        private static final int[] COINS = {200, 100, 50, 20, 10, 5, 2, 1};

        @Override
        public Integer process(MutableEntry<Long, Long> entry, Object... arguments) {
            int cents = (Integer) arguments[0];
            int coins = 0;
            for (int coin : COINS) {
                while (cents >= coin) {
                    cents -= coin;
                    coins++;
                }
            }
            return coins;
        }
    }

    public static class LoyaltyPoints implements EntryProcessor<Long, Long, Long> {
        @Override
        public Long process(MutableEntry<Long, Long> entry, Object... arguments) {
            long points = entry.exists() ? entry.getValue() : 0;
            long spent = (Long) arguments[0] / 100;
            points += spent;
            while (points >= 1_000) {
                points -= 1_000;
                spent += 50;
            }
            entry.setValue(points);
            return spent;
        }
    }

    public static class MoneySplit implements EntryProcessor<Long, Long, Long> {
        @Override
        public Long process(MutableEntry<Long, Long> entry, Object... weights) {
            long total = entry.getValue();
            long sum = 0;
            for (Object weight : weights) {
                sum += (Long) weight;
            }
            long given = 0;
            for (Object weight : weights) {
                given += total * (Long) weight / sum;
            }
            entry.setValue(total - given);
            return given;
        }
    }

    public static class ParseAmount implements EntryProcessor<Long, Long, Long> {
        @Override
        public Long process(MutableEntry<Long, Long> entry, Object... arguments) {
            try {
                long amount = Long.parseLong(String.valueOf(arguments[0]));
                entry.setValue(amount);
                return amount;
            } catch (NumberFormatException e) {
                return -1L;
            }
        }
    }

    public static class SafeDivide implements EntryProcessor<Long, Long, Long> {
        @Override
        public Long process(MutableEntry<Long, Long> entry, Object... arguments) {
            try {
                return entry.getValue() / (Long) arguments[0];
            } catch (ArithmeticException e) {
                return 0L;
            }
        }
    }

    public static class DefaultOnMissing implements EntryProcessor<Long, Long, Long> {
        @Override
        public Long process(MutableEntry<Long, Long> entry, Object... arguments) {
            long value;
            try {
                value = entry.getValue();
            } catch (NullPointerException e) {
                value = 0;
            } finally {
                entry.setValue(1L);
            }
            return value;
        }
    }
}
