package jentry.jcache.jsr107;

import static org.junit.jupiter.api.Assertions.assertEquals;
import static org.junit.jupiter.api.Assertions.assertThrows;
import static org.junit.jupiter.api.Assertions.assertTrue;

import java.lang.reflect.Method;
import java.util.HashSet;
import java.util.List;
import java.util.Set;
import org.junit.jupiter.api.Test;

/** Tests the suite itself: its size, and that its table of deviations has neither too many rows nor too few. */
class SuiteTest {
    private static final List<Class<?>> AREAS = List.of(ProviderTest.class, ManagerTest.class, ConfigurationTest.class, GetPutTest.class, BulkTest.class,
        IteratorTest.class, ExpiryTest.class, EventsTest.class, LoaderTest.class, WriterTest.class, ProcessorTest.class, StatisticsTest.class, BeansTest.class,
        ClosingTest.class, NullsTest.class, TypesTest.class, UnwrapTest.class);
    private static final int LEAST_ASSERTIONS = 800;
    private static final int MOST_ROWS = 6;

    @Test void theReferencePassesItWithAtLeast800Assertions() throws Exception {
        int before = Expect.COUNT.get();
        for (Class<?> area : AREAS) {
            for (Method check : area.getDeclaredMethods()) {
                if (check.isAnnotationPresent(Jsr.class)) {
                    var constructor = area.getDeclaredConstructor();
                    try (Subject on = new Subject(Subject.REFERENCE)) {
                        check.invoke(constructor.newInstance(), on);
                    }
                }
            }
        }
        int count = Expect.COUNT.get() - before;
        System.out.println("the suite has " + count + " assertions");
        assertTrue(count >= LEAST_ASSERTIONS, count + " assertions");
    }

    @Test void eachRowOfTheTableHasAStoreAndACheckAndEachCheckItsRow() {
        Set<String> used = new HashSet<>();
        for (Class<?> area : AREAS) {
            for (Method check : area.getDeclaredMethods()) {
                if (check.isAnnotationPresent(Jsr.class)) {
                    used.addAll(Subjects.rowsOf(check, area));
                }
            }
        }
        DeviationTable table = DeviationTable.OF_THE_PAGE;
        assertEquals(table.rows(), used);
        assertTrue(table.rows().size() <= MOST_ROWS, () -> table.rows().toString());
        assertEquals(List.of(Subject.CHILD, Subject.FRONT, Subject.REDIS), table.stores());
        for (String row : table.rows()) {
            assertTrue(table.stores().stream().anyMatch(it -> table.deviates(row, it)), row);
        }
    }

    @Test void theTableIsReadAsItIsWritten() {
        DeviationTable table = new DeviationTable(List.of("text", "| Deviation | a | b |", "|---|---|---|", "| **One**: why | yes | |", "| **Two**: why | | yes |", "end"));
        assertEquals(Set.of("One", "Two"), table.rows());
        assertTrue(table.deviates("One", "a") && !table.deviates("One", "b") && !table.deviates("Two", "a") && table.deviates("Two", "b"));
        assertThrows(IllegalArgumentException.class, () -> table.deviates("Three", "a"));
        assertThrows(IllegalArgumentException.class, () -> table.deviates("One", "c"));
    }
}
